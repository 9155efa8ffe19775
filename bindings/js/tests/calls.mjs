// What the module itself does, beside the engine: arguments that are missing or out of range, records, JSON, frames
// that are refused or given much room, arrays of another realm, and loading.
import assert from "node:assert/strict";
import { readFileSync } from "node:fs";
import { createServer } from "node:http";
import { join } from "node:path";
import { runInNewContext } from "node:vm";
import { active, engine, event, field, folder, lib, on, passive, Play, S, sheet, word } from "./common.mjs";
import { named, parts, refused } from "./common.mjs";

const { STARTED, COMMITTED, HOST, CALL_ARRIVE, CALL_STEP, CALL_BOARD } = lib;
const sent = (value) => JSON.parse(JSON.stringify(value));
const secret = sheet(field(3, ...field(4, ...word(7)), ...field(8, 2)), passive("b0"));
const WASM = readFileSync(join(folder, "engine.wasm"));
const NO_WORDS = [2 ** 32, -1, 0.5, NaN];
const FRESH = new Play(S);

// A player is asked for wherever one acts, looks or is recorded: there is no default.
function missing() {
    const { table, round } = new Play(S);
    named("player is missing", () => engine.arrive(table, round, 0));
    named("player is missing", () => engine.arrive(table, round, 0, undefined));
    named("player is missing", () => engine.board(table, round, 0));
    named("player is missing", () => engine.preview(table, round, 0, 0));
    named("player is missing", () => engine.leak(secret));
    named("player is missing", () => engine.leak(secret, new Uint8Array(lib.PARAMS)));
    named("player is missing", () => lib.recorded(CALL_ARRIVE, 0));
    named("player is missing", () => lib.recorded(CALL_BOARD, 0));
    named("number is missing", () => lib.recorded(CALL_ARRIVE));
    named("kind is missing", () => lib.recorded());
    assert.deepEqual(round, FRESH.round, "none of these was an arrival");
}

function wrong() {
    const { table, round } = new Play(S);
    named("player is no number", () => engine.board(table, round, 0, null));
    named("player is no number", () => engine.arrive(table, round, 0, "1"));
    named("event is missing", () => engine.arrive(table, round));
    named("round is missing", () => engine.step(table));
    named("table is no Uint8Array", () => engine.start([...table]));
    named("calls is missing", () => engine.replay(table, round));
    named("text is no string", () => engine.assemble());
    named("no call constructor", () => engine.call("constructor"));
    assert.deepEqual(round, FRESH.round, "none of these was an arrival");
}

// A recorded call is the one that was made: what was refused live is refused again, and no number is cut.
function records() {
    for (const player of [0, 1, 7, 8, 255, 256, 257, 2 ** 31, 2 ** 32 - 1]) {
        const [live, audited] = [FRESH.round.slice(), FRESH.round.slice()];
        const made = engine.call("arrive", FRESH.table, live, 0, player);
        const calls = new Uint8Array(lib.recorded(CALL_ARRIVE, 0, player));
        assert.deepEqual(engine.replay(FRESH.table, audited, calls), [made], `player ${player}`);
        assert.deepEqual(audited, live);
    }
    assert.deepEqual(lib.recorded(CALL_BOARD, 2 ** 32 - 1, 7), [2, 255, 255, 255, 255, 7]);
    assert.deepEqual(lib.recorded(CALL_ARRIVE, 0x01020304, 256), [0, 1, 2, 3, 4, 255]);
    assert.deepEqual(lib.recorded(CALL_STEP), [1, 0, 0, 0, 0, 0]);
}

function recordedRanges() {
    for (const n of [...NO_WORDS, Infinity]) {
        assert.throws(() => lib.recorded(CALL_ARRIVE, n, 1), RangeError, `number ${n}`);
        assert.throws(() => lib.recorded(CALL_ARRIVE, 0, n), RangeError, `player ${n}`);
    }
    for (const n of [...NO_WORDS, 3, 256, 257]) assert.throws(() => lib.recorded(n, 0, 1), RangeError, `kind ${n}`);
}

// Steps and frames go through JSON and through a clone, and what comes back is told on.
function json() {
    const { table, round } = new Play(sheet(event(1), active(2147483647, on(0, "b0 + 1"))));
    engine.arrive(table, round, 0, 3);
    const started = { kind: STARTED, player: 3, event: 0, arrival: 0, over: false };
    assert.deepEqual(sent(engine.step(table, round)), started);
    const frame = engine.frame(table, round, 100);
    const commit = { kind: COMMITTED, player: 3, event: 0, arrival: 0, over: true };
    assert.deepEqual(sent(frame), { steps: frame.steps, commits: [commit], end: lib.FRAME_IDLE });
    const made = frame.commits[0];
    for (const back of [made, sent(made), structuredClone(made), { ...made }, commit]) {
        assert.deepEqual(sent(engine.told(back)), { ...commit, over: false });
        assert.deepEqual(engine.told(sent(engine.told(back))), engine.told(back));
    }
    assert.equal(made.answer, (1n << 56n) + 0x33n, "the packed answer is there");
}

// A step's parts and its answer are one, to the largest arrival; what is none is not told on.
function toldParts() {
    const answer = (1n << 56n) + (999999n << 16n) + 0x1f73n;
    const last = { kind: COMMITTED, player: 7, event: 31, arrival: 999999, over: true };
    assert.deepEqual([sent(lib.stepOf(answer)), lib.stepOf(answer).answer], [last, answer]);
    assert.equal(engine.told(last).answer, answer - (1n << 56n));
    named("step is missing", () => engine.told());
    named("arrival is missing", () => engine.told({ kind: 3, player: 0, event: 0, over: false }));
    named("over is no boolean", () => engine.told({ kind: 3, player: 0, event: 0, arrival: 0 }));
    for (const [part, n] of [["kind", 16], ["player", 16], ["event", 256], ["arrival", 2 ** 32], ["event", -1]]) {
        assert.throws(() => engine.told({ ...last, [part]: n }), RangeError, part);
    }
}

// A frame that meets a refused step gives back what was made before it. In a table that was damaged event 0 has no
// instructions: word 2 of its record. Event 1 starts, its 8 instructions commit it, event 0 starts.
function refusedFrame() {
    const { table, round } = new Play(S);
    new DataView(table.buffer).setUint32(4 * (8 + 2), 0);
    engine.arrive(table, round, 0, HOST);
    engine.arrive(table, round, 1, 2);
    const alone = round.slice();
    const cut = engine.frame(table, round, 100);
    assert.deepEqual([cut.steps, cut.end], [10, lib.FRAME_REFUSED]);
    assert.deepEqual(sent(cut.commits), [{ kind: COMMITTED, player: 2, event: 1, arrival: 1, over: false }]);
    for (let i = 0; i < 10; i++) engine.step(table, alone);
    assert.deepEqual(round, alone, "as so many steps leave it");
    refused(14, () => engine.step(table, round));
    const none = engine.frame(new Uint8Array(10), round, 1);
    assert.deepEqual(none, { steps: 0, commits: [], end: lib.FRAME_REFUSED });
    assert.deepEqual(round, alone);
}

// Both events in hand: 9 steps commit event 1, 18 more event 0.
function two() {
    const play = new Play(S);
    engine.arrive(play.table, play.round, 0, HOST);
    engine.arrive(play.table, play.round, 1, HOST);
    return play;
}

// Room for any number of commits takes no memory that a frame has no use for.
async function muchRoom() {
    const own = await lib.load(await WebAssembly.compile(WASM));
    const grow = WebAssembly.Memory.prototype.grow;
    const grown = [];
    WebAssembly.Memory.prototype.grow = function (pages) {
        grown.push(pages);
        return grow.call(this, pages);
    };
    try {
        for (const most of [1000, 2e7, 1e9, 2 ** 32 - 1, Infinity]) {
            const { table, round } = new Play(S);
            for (let i = 0; i < 64; i++) engine.arrive(table, round, i & 1, HOST);
            const all = own.frame(table, round, 2 ** 32 - 1, most);
            assert.deepEqual([all.commits.length, all.end, all.steps], [64, lib.FRAME_IDLE, 32 * 18 + 32 * 9]);
            assert.deepEqual(grown, [1], "pages of memory that were asked for");
        }
    } finally {
        WebAssembly.Memory.prototype.grow = grow;
    }
}

// The answer is that of as much room as was asked for.
function room() {
    const { FRAME_MADE, FRAME_FULL } = lib;
    for (const [steps, most, end] of [[10, 1, FRAME_FULL], [10, 2, FRAME_MADE], [9, 1, FRAME_MADE]]) {
        const { table, round } = two();
        assert.equal(engine.frame(table, round, steps, most).end, end, `${steps} steps, ${most} commits`);
    }
    for (let steps = 0; steps < 30; steps++) {
        for (const most of [0, 1, 2, 3, 64, 65, 66, 1000]) {
            const [held, lent] = [two(), two()];
            const { steps: made, commits, end } = engine.frame(held.table, held.round, steps, most);
            const answer = engine.call("frame", lent.table, lent.round, steps, new Uint8Array(8 * most));
            assert.equal((BigInt(end) << 56n) + (BigInt(commits.length) << 32n) + BigInt(made), answer);
            assert.deepEqual(held.round, lent.round);
        }
    }
    for (const n of NO_WORDS) {
        assert.throws(() => engine.frame(FRESH.table, FRESH.round.slice(), 1, n), RangeError);
        assert.throws(() => engine.frame(FRESH.table, FRESH.round.slice(), n, 1), RangeError);
    }
}

// Arrays of another realm are taken; arrays of another kind are not.
function realms() {
    const other = (bytes) => runInNewContext("new Uint8Array(list)", { list: [...bytes] });
    assert.ok(!(other(S) instanceof Uint8Array));
    const [table, round] = [other(engine.compile(other(S))), other(FRESH.round)];
    engine.arrive(table, round, 0, HOST);
    engine.frame(table, round, 100);
    assert.equal(engine.board(table, round, 0, HOST), 2);
    for (const array of [Int8Array, Uint8ClampedArray, DataView, ArrayBuffer]) {
        const given = array === ArrayBuffer ? new ArrayBuffer(3) : new array(new ArrayBuffer(3));
        named("sheet is no Uint8Array", () => engine.compile(given));
    }
}

// Numbers become the 32 bytes that compile and the others take.
function parameters() {
    const bytes = (...list) => new Uint8Array([...list, ...new Array(32 - list.length).fill(0)]);
    assert.deepEqual(lib.parameters([]), bytes());
    assert.deepEqual(lib.parameters([5]), bytes(0, 0, 0, 5));
    assert.deepEqual(lib.parameters([-1, 0x01020304, -2147483648, 2147483647]), bytes(
        255, 255, 255, 255, 1, 2, 3, 4, 128, 0, 0, 0, 127, 255, 255, 255));
    assert.deepEqual(lib.parameters([0, 0, 0, 0, 0, 0, 0, 9])[31], 9);
    for (const n of [2147483648, -2147483649, 0.5, NaN, Infinity]) assert.throws(() => lib.parameters([n]), RangeError);
    assert.throws(() => lib.parameters(new Array(9).fill(0)), RangeError);
    named("value 1 is missing", () => lib.parameters([1, undefined]));
    named("value 0 is no number", () => lib.parameters(["1"]));
    const level = engine.assemble("param p\nparam q\nevent e rank 1\nactive b = 0\n  on e: b + p * q");
    assert.deepEqual(new Play(level, lib.parameters([6, -7])).run(0), [-42]);
}

// A server with the module under several types, asked by `at`.
async function served(part) {
    const types = { "/engine.wasm": "application/wasm", "/long": "application/wasm; v=1", "/plain": "text/plain" };
    const server = createServer(({ url }, answer) => {
        answer.writeHead(types[url] ? 200 : 404, { "content-type": types[url] ?? "text/html" });
        answer.end(types[url] ? WASM : "<html>no such file</html>");
    });
    await new Promise((done) => server.listen(0, "127.0.0.1", done));
    try {
        await part((path) => fetch(`http://127.0.0.1:${server.address().port}${path}`), Object.keys(types));
    } finally {
        server.close();
        server.closeAllConnections();
    }
}

// What is fetched is compiled as it is received where the server names the type, else whole.
async function loading(at, paths) {
    const stream = WebAssembly.instantiateStreaming;
    const streamed = [];
    let path;
    WebAssembly.instantiateStreaming = (...given) => (streamed.push(path), stream.apply(WebAssembly, given));
    try {
        for (path of paths) assert.deepEqual((await lib.load(at(path))).version(), engine.version(), path);
        assert.deepEqual(streamed, ["/engine.wasm"]);
        WebAssembly.instantiateStreaming = undefined;
        assert.deepEqual((await lib.load(await at("/engine.wasm"))).version(), engine.version());
    } finally {
        WebAssembly.instantiateStreaming = stream;
    }
    for (const source of [WASM, new Uint8Array(WASM).buffer, await WebAssembly.compile(WASM)]) {
        assert.deepEqual((await lib.load(source)).version(), engine.version());
    }
}

// A failed answer is told by its status.
async function failedLoading(at) {
    await assert.rejects(lib.load(at("/missing.wasm")), /load: http:.*missing\.wasm has status 404 Not Found/);
    await assert.rejects(lib.load(new Response("", { status: 500 })), /load: the response has status 500/);
}

await parts({
    missing, wrong, records, recordedRanges, json, toldParts, refusedFrame, muchRoom, room, realms,
    parameters,
    loading: () => served(loading),
    failedLoading: () => served(failedLoading),
});
console.log("arguments, records, JSON, frames, arrays and loading in JavaScript: all as the page says");
