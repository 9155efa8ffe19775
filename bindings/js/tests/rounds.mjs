// Rounds that stay in the module's memory: each answers and has the bytes that the calls on arrays give, keeps to its
// place, gives it back, and is lost rather than wrong where the stack runs out.
import assert from "node:assert/strict";
import { readFileSync } from "node:fs";
import { join } from "node:path";
import { setFlagsFromString } from "node:v8";
import { runInNewContext } from "node:vm";
import { active, engine, event, field, folder, lib, on, passive, Play, S, sheet } from "./common.mjs";
import { named, parts, refused } from "./common.mjs";

const { HOST, FRAME_IDLE, FRAME_REFUSED } = lib;
const MODULE = await WebAssembly.compile(readFileSync(join(folder, "engine.wasm")));
const shy = field(2, ...engine.formula("b0"), ...field(8, 2));
const SHARED = sheet(event(1, 2), event(3), active(2147483647, on(0, "b0 + 1"), on(1, "5")), shy, passive("b0 * b0"));
const LONGER = sheet(event(1), event(2), active(1, on(0, "b0 + b1")), active(1, on(1, "5")), passive("b0 + 1"));

// The same numbers at every run.
function chance(seed) {
    let state = seed;
    return (n) => {
        state = (Math.imul(state, 1664525) + 1013904223) >>> 0;
        return Math.floor((state / 2 ** 32) * n);
    };
}

// What a call gives, or the number by which it is refused.
function outcome(make) {
    try {
        return { gave: make() };
    } catch (e) {
        if (!(e instanceof lib.Refusal)) throw e;
        return { refused: e.number };
    }
}

// One of the calls, on the Round and on the arrays.
function together(pick, round, twin) {
    const { table, round: bytes } = twin;
    const [e, b, p, n] = [pick(3), pick(4), pick(9), pick(40)];
    const most = pick(3);
    return [
        [() => round.arrive(e, p), () => engine.arrive(table, bytes, e, p)],
        [() => round.step(), () => engine.step(table, bytes)],
        [() => round.frame(n, most), () => engine.frame(table, bytes, n, most)],
        [() => round.frame(n), () => engine.frame(table, bytes, n)],
        [() => round.board(b, p), () => engine.board(table, bytes, b, p)],
        [() => round.preview(e, b, p), () => engine.preview(table, bytes, e, b, p)],
        [() => round.forecast(), () => engine.forecast(table, bytes)],
    ][pick(7)];
}

// Several rounds at once, on tables that they share, mended and resumed, opened and freed in between.
function twins() {
    const pick = chance(1);
    const tables = [S, SHARED, LONGER].map((bytes) => engine.compile(bytes));
    const all = [];
    for (let turn = 0; turn < 4000; turn++) {
        const k = pick(12);
        if (all[k] === undefined || pick(200) === 0) {
            all[k]?.round.free();
            const table = tables[pick(3)];
            all[k] = { round: engine.open(table), table, twin: { table, round: engine.start(table) } };
        }
        const { round, twin } = all[k];
        if (pick(40) === 0) {
            const next = tables[pick(3)];
            const both = [() => round.mend(next), () => engine.mend(twin.table, next, twin.round)];
            const [made, wanted] = both.map(outcome);
            assert.deepEqual(made, wanted);
            if (!("refused" in made)) twin.table = next;
        } else if (pick(60) === 0) {
            all[k].round = engine.resume(twin.table, round.bytes()); // the old one is dropped
        } else {
            const [made, wanted] = together(pick, round, twin).map(outcome);
            assert.deepEqual(made, wanted, `turn ${turn}`);
        }
        assert.deepEqual(all[k].round.bytes(), twin.round, `turn ${turn}`);
    }
    all.forEach(({ round }) => round.free());
}

function wrong() {
    const round = engine.open(engine.compile(S));
    named("arrive: player is missing", () => round.arrive(0));
    named("arrive: event is missing", () => round.arrive());
    named("board: player is missing", () => round.board(0));
    named("board: player is no number", () => round.board(0, 1n));
    named("preview: player is missing", () => round.preview(0, 0));
    named("frame: steps is missing", () => round.frame());
    named("open: table is missing", () => engine.open());
    named("open: table is no Uint8Array", () => engine.open(round));
    named("resume: round is missing", () => engine.resume(engine.compile(S)));
    named("mend: table is missing", () => round.mend());
    for (const n of [-1, 0.5, NaN, 2 ** 32]) {
        assert.throws(() => round.arrive(n, HOST), RangeError);
        assert.throws(() => round.arrive(0, n), RangeError);
        assert.throws(() => round.board(n, HOST), RangeError);
        assert.throws(() => round.board(0, n), RangeError);
        assert.throws(() => round.preview(0, 0, n), RangeError);
        assert.throws(() => round.frame(n), RangeError);
    }
    assert.deepEqual(round.bytes(), new Play(S).round, "none of these was an arrival");
    round.free();
}

function foreign() {
    const table = engine.compile(S);
    refused(14, () => engine.open(new Uint8Array(10)));
    refused(14, () => engine.open(new Uint8Array(lib.TABLE).fill(255)));
    refused(14, () => engine.resume(table, new Uint8Array(lib.ROUND - 1)));
    refused(14, () => engine.resume(table, new Uint8Array(lib.ROUND).fill(255)));
    const longer = engine.open(new Uint8Array([...table, 1, 2, 3]));
    assert.deepEqual(longer.bytes(), engine.start(table), "bytes beyond a table are not read");
    refused(14, () => longer.mend(new Uint8Array(10)));
    longer.free();
    const hurt = table.slice();
    new DataView(hurt.buffer).setUint32(4 * (8 + 2), 0); // event 0 has no instructions
    const round = engine.open(hurt);
    round.arrive(0, HOST);
    round.arrive(1, 2);
    const { steps, commits, end } = round.frame(100, Infinity);
    assert.deepEqual([steps, commits.length, commits[0].player, end], [10, 1, 2, FRAME_REFUSED]);
    round.free();
}

// Nothing is copied by a call on a Round, and no memory is taken.
function noCopies() {
    const round = engine.open(engine.compile(S));
    const copied = [];
    const arrays = Object.getPrototypeOf(Uint8Array.prototype);
    const watched = ["set", "slice", "subarray", "copyWithin"].map((name) => [arrays, name]);
    const saved = [...watched, [WebAssembly.Memory.prototype, "grow"]].map(([of, name]) => {
        const does = of[name];
        of[name] = function (...given) {
            copied.push(name);
            return does.apply(this, given);
        };
        return () => (of[name] = does);
    });
    try {
        round.arrive(0, HOST);
        assert.equal(round.frame(100).commits.length, 1);
        assert.deepEqual([round.step().kind, round.board(0, HOST), round.forecast()], [0, 2, 0]);
        assert.equal(round.preview(0, 0, HOST), 3);
        assert.deepEqual(copied, []);
        round.bytes();
        assert.deepEqual(copied, ["slice"], "a copy is noticed");
    } finally {
        saved.forEach((back) => back());
        round.free();
    }
}

// Pages by which memory grows while `make` runs.
async function pagesOf(make) {
    const { prototype } = WebAssembly.Memory;
    const { grow } = prototype;
    let pages = 0;
    prototype.grow = function (n) {
        pages += n;
        return grow.call(this, n);
    };
    try {
        await make();
    } finally {
        prototype.grow = grow;
    }
    return pages;
}

// A table has one place for all its rounds, and what is freed is used again; a Round keeps its bytes when memory grows.
async function places() {
    const own = await lib.load(MODULE);
    const [table, other] = [engine.compile(S), engine.compile(LONGER)];
    const first = own.open(table);
    const commit = (player) => {
        first.arrive(0, player);
        return first.frame(100).commits[0].player;
    };
    assert.equal(commit(3), 3);
    const rounds = [];
    const grown = await pagesOf(() => {
        for (let k = 0; k < 2000; k++) rounds.push(own.open(k & 1 ? table : other.slice()));
    });
    assert.ok(grown > 0 && grown * 65536 < 2000 * lib.ROUND + 2 * lib.TABLE + 2 ** 20, `${grown} pages`);
    assert.deepEqual([commit(2), first.board(0, HOST)], [2, 3]);
    rounds.forEach((round) => round.free());
    const again = await pagesOf(() => {
        for (let k = 0; k < 10000; k++) own.open(k & 1 ? table : other).free();
        for (let k = 0; k < 1000; k++) rounds.push(own.open(k & 1 ? table : other));
    });
    assert.equal(again, 0);
    assert.equal(first.board(0, HOST), 3);
}

// Tables that differ in one constant have two places.
function levels() {
    const sheet = engine.assemble("param p\nevent e rank 1\nactive b = 0\n  on e: b * 3 + p");
    const rounds = [4, 5].map((p) => engine.open(engine.compile(sheet, lib.parameters([p]))));
    for (const round of rounds) {
        round.arrive(0, HOST);
        round.frame(100);
    }
    assert.deepEqual(rounds.map((round) => round.board(0, HOST)), [4, 5]);
    rounds.forEach((round) => round.free());
}

// A round that was mended is on its new table alone, whatever comes to the old one's place; where it was refused, on
// its old.
async function mended() {
    const own = await lib.load(MODULE);
    const round = own.open(engine.compile(S));
    const play = (e) => {
        round.arrive(e, HOST);
        assert.equal(round.frame(100).end, FRAME_IDLE);
        return [0, 1].map((b) => round.board(b, HOST));
    };
    const sheets = [SHARED, sheet(passive("7")), sheet(event(0))];
    const others = () => sheets.map((bytes) => own.open(engine.compile(bytes)));
    assert.deepEqual(play(0), [2, 1]);
    round.mend(engine.compile(LONGER));
    const some = others();
    assert.deepEqual([play(1), play(0), round.board(2, HOST)], [[2, 5], [7, 5], 8]);
    round.arrive(1, HOST);
    refused(28, () => round.mend(engine.compile(sheet(event(0)))));
    const more = others();
    round.frame(100);
    assert.deepEqual(play(0), [12, 5]);
    assert.equal(more[1].board(0, HOST), 7);
    [round, ...some, ...more].forEach((one) => one.free());
}

function freed() {
    const table = engine.compile(S);
    const round = engine.open(table);
    round.free();
    round.free();
    const other = engine.open(engine.compile(LONGER));
    for (const make of [
        () => round.arrive(0, HOST), () => round.step(), () => round.frame(1), () => round.board(0, HOST),
        () => round.preview(0, 0, HOST), () => round.forecast(), () => round.mend(table), () => round.bytes(),
    ]) {
        assert.throws(make, /the round was freed/);
    }
    assert.deepEqual(other.bytes(), engine.start(engine.compile(LONGER)));
    other.free();
}

// Rounds that are dropped give their places back when they are collected.
async function dropped() {
    setFlagsFromString("--expose-gc");
    const collect = runInNewContext("gc");
    const own = await lib.load(MODULE);
    const table = engine.compile(S);
    const some = async () => {
        for (let k = 0; k < 500; k++) own.open(table).arrive(0, HOST);
        for (let k = 0; k < 2; k++) {
            await new Promise((done) => setImmediate(done));
            collect();
        }
        await new Promise((done) => setTimeout(done, 0));
    };
    const first = await pagesOf(some);
    const later = await pagesOf(async () => {
        for (let k = 0; k < 5; k++) await some();
    });
    assert.ok(later <= first, `${first} pages for 500 rounds, ${later} more for five times as many`);
}

// Goes down until the stack runs out, and makes a call from each level on the way up. The words before it shift the
// levels, so that the stack runs out at other places of the call.
function brink(make) {
    try {
        brink(make);
    } catch {
        make();
    }
}
const atBrink = (make, ...words) => brink(make, words);

// Where the stack runs out in a call that writes, the round is as it was, or is lost and says so.
function cutShort() {
    const table = engine.compile(SHARED);
    const [aside, model] = [engine.open(table), engine.open(table)];
    [aside, model].forEach((round) => round.arrive(0, 1));
    const start = model.bytes();
    model.frame(100);
    const made = model.bytes();
    let lost = 0;
    for (let words = 0; words < 40; words++) {
        const rounds = Array.from({ length: 16 }, () => engine.resume(table, start));
        const passed = [];
        let tried = 0;
        atBrink(() => {
            const k = tried++;
            rounds[k]?.frame(100);
            passed.push(k);
        }, ...new Array(words));
        rounds.forEach((round, k) => {
            try {
                assert.deepEqual(round.bytes(), passed.includes(k) ? made : start);
            } catch (e) {
                if (!/the round was lost/.test(e.message) || passed.includes(k)) throw e;
                lost++;
            }
            round.free();
        });
    }
    assert.ok(lost > 0, "the stack never ran out in a call");
    assert.deepEqual(aside.bytes(), start, "another round is as it was");
    assert.deepEqual([aside.frame(100).commits[0].over, aside.board(0, HOST)], [true, -2147483648]);
    [aside, model].forEach((round) => round.free());
}

// A call that only reads loses nothing where the stack runs out; nor does the engine's own stack run out in the end.
function readAtBrink() {
    const round = engine.open(engine.compile(SHARED));
    const start = round.bytes();
    for (let k = 0; k < 50; k++) {
        let tried = 0;
        atBrink(() => tried++ < 16 && round.preview(0, 0, HOST), ...new Array(k));
    }
    assert.deepEqual([round.preview(0, 0, HOST), round.bytes()], [-2147483648, start]);
    round.free();
}

await parts({
    twins, wrong, foreign, noCopies, places, levels, mended, freed, dropped, cutShort, readAtBrink,
});
console.log("rounds that stay in the module's memory: as the calls on arrays, in their places, given back");
