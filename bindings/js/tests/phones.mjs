// Matches as two phones play them: node phones.mjs FOLDER FILE... Each file has sheets, an order of deliveries and
// changes of sheets, and the board at its end (tests/second, phones.rs, writes them). Two workers play it with different
// numbers of steps a frame, each on a module of its own, and must both end with that board. A host that hands events in
// by `arrive` and drops refusals must be noticed.
import assert from "node:assert/strict";
import { readFileSync } from "node:fs";
import { resolve } from "node:path";
import { pathToFileURL } from "node:url";
import { isMainThread, parentPort, Worker, workerData } from "node:worker_threads";

const FAST = 500;
const SLOW = 7;
const BURST = 90;

function read(file, PARAMS) {
    const bytes = readFileSync(file);
    let at = 0;
    const number = () => bytes.readUInt32BE((at += 4) - 4);
    const part = (length) => new Uint8Array(bytes.subarray(at, (at += length)));
    const times = (make) => Array.from({ length: number() }, make);
    const sheets = times(() => ({ params: part(PARAMS), sheet: part(number()) }));
    const turns = times(() => ({ change: number() === 1, first: number(), second: number() }));
    return { sheets, turns, board: times(() => number() | 0) };
}

// The entry by a delivery; or as the wrong host does it. Whether it was taken in.
function handIn(lib, round, number, { first, second }, drops) {
    try {
        if (drops) round.arrive(first, second);
        else round.deliver(number, first, second);
        return 1;
    } catch (refusal) {
        if (drops || refusal.number === 15 || refusal.number === 25) return 0;
        throw refusal;
    }
}

function play(lib, engine, file, pace, drops) {
    const { sheets, turns, board } = read(file, lib.PARAMS);
    const tables = sheets.map(({ sheet, params }) => engine.compile(sheet, params));
    const round = engine.open(tables[0]);
    let number = 0;
    turns.forEach((turn, k) => {
        if (!turn.change) number += handIn(lib, round, number, turn, drops);
        else round.mendAfter(round.taken().number, tables[turn.first]);
        if (pace === FAST || k % BURST === 0) round.frame(pace);
    });
    const ended = round.boardAfter(number, lib.HOST).board;
    round.free();
    return JSON.stringify(ended) === JSON.stringify(board);
}

// The race of docs/HOST.md, 90 points each, 10 for a hit, 100 wins: the winner that a phone finds when it is first idle,
// and the one that it finds after two entries.
function race(lib, engine, fast) {
    const text = "event h1 rank 1 event h2 rank 1 active s1 = 90 on h1: s1 + 10 active s2 = 90 on h2: s2 + 10";
    const round = engine.open(engine.compile(engine.assemble(text)));
    const winner = (number) => round.boardAfter(number, lib.HOST).board.findIndex((score) => score >= 100);
    round.deliver(0, 1, 1);
    const early = fast ? winner(1) : -1;
    round.deliver(1, 0, 1);
    const placed = winner(2);
    assert.throws(() => round.boardAfter(1, lib.HOST), lib.NotThere);
    assert.throws(() => round.boardAfter(3, lib.HOST), lib.NotThere);
    round.free();
    return { found: early < 0 ? placed : early, placed };
}

async function raced(folder) {
    const lib = await import(pathToFileURL(resolve(folder, "engine.mjs")));
    const engine = await lib.load(readFileSync(resolve(folder, "engine.wasm")));
    const [fast, slow] = [true, false].map((pace) => race(lib, engine, pace));
    assert.deepEqual([fast.found, slow.found], [1, 0], "read whenever a phone is idle");
    assert.deepEqual([fast.placed, slow.placed], [0, 0], "read after two entries");
}

async function phone({ folder, files, pace }) {
    const lib = await import(pathToFileURL(resolve(folder, "engine.mjs")));
    const engine = await lib.load(readFileSync(resolve(folder, "engine.wasm")));
    const ends = (drops) => files.map((file) => play(lib, engine, file, pace, drops));
    parentPort.postMessage({ right: ends(false), wrong: ends(true) });
}

async function both(folder, files) {
    const data = { folder, files };
    const workers = [FAST, SLOW].map((pace) => new Promise((done, fail) => {
        const worker = new Worker(new URL(import.meta.url), { workerData: { ...data, pace } });
        worker.on("message", done).on("error", fail);
    }));
    const [fast, slow] = await Promise.all(workers);
    files.forEach((file, k) => assert.ok(fast.right[k] && slow.right[k], `${file}: the boards differ`));
    const noticed = files.filter((_, k) => !(fast.wrong[k] && slow.wrong[k])).length;
    assert.ok(noticed > 0, "a host that drops refusals is not noticed");
    console.log(`${files.length} matches by two phones in WebAssembly: equal boards`);
    console.log(`a host that drops refusals is noticed in ${noticed}`);
}

if (isMainThread) {
    await raced(process.argv[2]);
    await both(process.argv[2], process.argv.slice(3));
} else await phone(workerData);
