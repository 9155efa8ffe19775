// Plays the rounds of the scope in WebAssembly, tries what the module does with what it is given (tests/), and runs the
// page's example: test.mjs FOLDER, the folder having engine.mjs and engine.wasm.
import assert from "node:assert/strict";
import { execFileSync } from "node:child_process";
import { readFileSync, writeFileSync, rmSync } from "node:fs";
import { join } from "node:path";
import * as common from "./tests/common.mjs";

const { folder, lib, engine, field, event, word, active, on, later, passive, sheet, refused, Play, S } = common;
const { IDLE, STARTED, COMMITTED, BROKE_IN, HOST, NO_EVENT, CALL_ARRIVE, CALL_STEP, CALL_BOARD } = lib;

// Sheet S: three times event 0, then 1 and 0, or 0 and 1.
assert.equal(S.length, 74);
const s = new Play(S);
assert.deepEqual([s.run(0), s.run(0), s.run(0)], [[2, 1], [3, 2], [5, 3]]);
assert.deepEqual(s.run(1, 0), [6, 5]);
assert.deepEqual(new Play(S).run(0, 0, 0, 0, 1), [8, 1]);
const waits = new Play(S);
waits.run(0, 0, 0);
engine.arrive(waits.table, waits.round, 0, HOST);
engine.arrive(waits.table, waits.round, 1, HOST);
waits.playOut();
assert.deepEqual(waits.board(), [6, 5], "event 1 goes first where both wait");

// Events of 17 and 8 instructions, one step more for each start.
const planned = new Play(S);
engine.arrive(planned.table, planned.round, 0, HOST);
assert.equal(engine.forecast(planned.table, planned.round), 18);
engine.arrive(planned.table, planned.round, 1, HOST);
assert.equal(engine.forecast(planned.table, planned.round), 18 + 9);

// Immediate and later handlers, passives, arithmetic.
assert.deepEqual(new Play(sheet(event(1), active(1, on(0, "b1")), active(2, later(0, "b0")))).run(0), [2, 2]);
assert.deepEqual(new Play(sheet(event(1), active(1, later(0, "b1")), active(2, later(0, "b0")))).run(0), [2, 1]);
const both = sheet(event(1), active(1, on(0, "b1")), active(2, on(0, "b0")));
refused(12, () => engine.compile(both));
const why = engine.circle(both);
assert.deepEqual({ ...why, circle: why.circle.sort() }, { number: 12, event: 0, circle: [0, 1] });
assert.equal(engine.circle(sheet(passive("b0"))).event, NO_EVENT);
assert.deepEqual(engine.circle(S), { number: 0 });
assert.deepEqual(new Play(sheet(event(1), active(0, later(0, "b1")), passive("b0 + 1"))).run(0), [1, 2]);
refused(12, () => engine.compile(sheet(event(1), active(0, on(0, "b1")), passive("b0 + 1"))));
const sums = ["2147483647 + 1", "(0 - 7) / 2", "5 / 0"];
assert.deepEqual(new Play(sheet(...sums.map(passive))).board(), [-2147483648, -4, 0]);
assert.equal(new Play(sheet(passive("!".repeat(15) + "1"))).board()[0], 0);
refused(9, () => engine.formula("!".repeat(16) + "1"));

// 64 arrivals pass, the next is refused; after a commit one more passes.
const full = new Play(S);
for (let i = 0; i < 64; i++) engine.arrive(full.table, full.round, 0, HOST);
refused(16, () => engine.arrive(full.table, full.round, 0, HOST));
while (engine.step(full.table, full.round).kind !== COMMITTED);
engine.arrive(full.table, full.round, 0, HOST);

// Equal ranks A and B, and H of higher rank that breaks in: A before B.
const pair = active(1, on(0, "b0 + 1"), on(1, "b0 * 2"));
const trap = new Play(sheet(event(1), event(1), event(9), pair, active(0, on(2, "7")), passive("2")));
engine.arrive(trap.table, trap.round, 0, HOST);
engine.arrive(trap.table, trap.round, 1, HOST);
for (let i = 0; i < 6; i++) engine.step(trap.table, trap.round);
engine.arrive(trap.table, trap.round, 2, HOST);
const broke = engine.step(trap.table, trap.round);
assert.deepEqual([broke.kind, broke.event, broke.arrival], [BROKE_IN, 2, 2]);
trap.playOut();
assert.equal(trap.board()[0], 4);

// Players: rights, what is told, a look ahead.
const shy = field(2, ...engine.formula("b0"), ...field(8, 2));
const shared = new Play(sheet(event(1, 2), active(2147483647, on(0, "b0 + 1")), shy));
refused(25, () => engine.arrive(shared.table, shared.round, 0, 2));
refused(24, () => engine.arrive(shared.table, shared.round, 0, 8));
refused(25, () => engine.board(shared.table, shared.round, 1, 2));
assert.equal(engine.preview(shared.table, shared.round, 0, 1, 1), -2147483648);
engine.arrive(shared.table, shared.round, 0, 1);
const first = engine.step(shared.table, shared.round);
assert.deepEqual([first.kind, first.player, first.event, first.arrival], [STARTED, 1, 0, 0]);
let did;
do did = engine.step(shared.table, shared.round);
while (did.kind !== COMMITTED);
assert.deepEqual([did.over, engine.told(did).over, engine.told(did).player], [true, false, 1]);

// Parameters, a joined sheet, a mended one, a record.
const level = sheet(event(0), active(0, field(5, 0, 0, ...field(0x12, 4, ...field(0x11, 0), ...field(0x13, 0)))));
refused(20, () => engine.compile(level));
assert.deepEqual(new Play(level, new Uint8Array([...word(5), ...new Array(28).fill(0)])).run(0, 0), [10]);
const pooled = engine.join(S, sheet(event(1), event(2), active(10, on(1, "b0 + b0"))));
assert.deepEqual(new Play(pooled).run(0, 1), [2, 1, 20]);
refused(26, () => engine.join(S, sheet(event(7))));
const mended = new Play(S);
mended.run(0);
const next = engine.compile(sheet(event(1), event(2), active(1, on(0, "b0 + b1")), active(1, on(1, "5"))));
engine.mend(mended.table, next, mended.round);
mended.table = next;
assert.deepEqual(mended.run(1), [2, 5]);
const again = new Play(S);
const steps = new Array(18).fill(lib.recorded(CALL_STEP));
const calls = [lib.recorded(CALL_ARRIVE, 0, HOST), ...steps, lib.recorded(CALL_BOARD, 0, HOST)];
const answers = engine.replay(again.table, again.round, new Uint8Array(calls.flat()));
assert.deepEqual([answers.length, lib.stepOf(answers[18]).kind, answers[19]], [20, COMMITTED, (1n << 32n) + 2n]);

// Frames, counts, ranks, the version.
const framed = new Play(S);
engine.arrive(framed.table, framed.round, 0, HOST);
engine.arrive(framed.table, framed.round, 1, HOST);
assert.deepEqual(engine.frame(framed.table, framed.round, 5), { steps: 5, commits: [], end: lib.FRAME_MADE });
const one = engine.frame(framed.table, framed.round, 100, 1);
assert.deepEqual([one.steps, one.commits[0].event, one.end], [4, 1, lib.FRAME_FULL]);
assert.equal(engine.frame(framed.table, framed.round, 17).end, lib.FRAME_MADE);
const rest = engine.frame(framed.table, framed.round, 1, 1);
assert.deepEqual([rest.steps, rest.commits.length, rest.end], [1, 1, lib.FRAME_IDLE]);
assert.deepEqual([engine.eventCount(s.table), engine.behaviourCount(s.table), engine.eventRank(s.table, 1)], [2, 2, 2]);
refused(15, () => engine.eventRank(s.table, 2));
assert.deepEqual(engine.version(), { interface: lib.VERSION, layout: lib.LAYOUT });

// Whether phones agree on a sheet, and whether a hidden value leaks.
assert.deepEqual(engine.agree(S), { number: 29, events: [0, 1], behaviour: 1 });
assert.deepEqual(engine.agree(sheet(passive("1"))), { number: 0 });
assert.deepEqual(engine.agree(new Uint8Array([1])), { number: 4 });
const secret = sheet(field(3, ...field(4, ...word(7)), ...field(8, 2)), passive("b0"));
assert.deepEqual(engine.leak(secret, undefined, 2), { number: 30, seen: 1, hidden: 0 });
assert.deepEqual(engine.leak(secret, undefined, 1), { number: 0 });
assert.deepEqual(engine.leak(secret, undefined, 8), { number: 24 });

// A sheet as text, and back.
const written = engine.assemble("event hit rank 1\nactive score = 0\n  on hit: score + 10\n");
assert.deepEqual(new Play(written).run(0, 0), [20]);
assert.equal(engine.describe(written), "event e0 rank 1\nactive b0=0\n  on e0:b0+10\n");
assert.deepEqual(engine.assemble(engine.describe(S)), S);
assert.throws(() => engine.assemble("active score = 0\n  on hit: score + 1"), { number: 38, line: 2, column: 6 });
refused(4, () => engine.describe(new Uint8Array([1])));

// A rest day, foreign bytes, wrong arguments.
assert.deepEqual(new Play(new Uint8Array(0)).board(), []);
refused(14, () => engine.step(new Uint8Array(10), again.round));
refused(4, () => engine.compile(new Uint8Array([1])));
assert.throws(() => engine.arrive(again.table, again.round, -1, HOST), RangeError);
assert.throws(() => engine.compile("sheet"), TypeError);
assert.equal(engine.formula("(".repeat(511) + "b0" + ")".repeat(511)).length, 4);

// Where JavaScript's stack runs out in a call, the engine can be used on.
function deep(n) {
    return n === 0 ? engine.formula("(".repeat(511) + "b0" + ")".repeat(511)) : deep(n - 1);
}
let out = 0;
for (let n = 1000; n < 20000; n += 500) {
    try {
        deep(n);
    } catch (e) {
        assert.ok(e instanceof RangeError, String(e));
        out++;
    }
}
assert.ok(out > 0, "no stack ran out");
assert.deepEqual(new Play(S).run(0, 0, 0), [5, 3]);
console.log("the rounds of the scope in WebAssembly: all as it says");

await import("./tests/calls.mjs");
await import("./tests/rounds.mjs");
await import("./tests/types.mjs");

// The page's example prints what the page says.
const page = readFileSync(join(folder, "README.md"), "utf8");
const [, example] = page.match(/```js\n([^]*?)```/);
const [, printed] = page.match(/```text\n([^]*?)```/);
const program = join(folder, "example.mjs");
writeFileSync(program, example);
try {
    assert.equal(execFileSync(process.execPath, [program], { encoding: "utf8" }), printed);
} finally {
    rmSync(program);
}
console.log("the example of docs/host/JAVASCRIPT.md prints what it says");
