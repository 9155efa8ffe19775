// An event of examples/daily.sheet in WebAssembly, from its arrival to its commit, by the module's exports:
// wasm.mjs ENGINE.WASM [RUNS] prints least/median/greatest of the runs, in nanoseconds. The events are those of
// tests/second/src/bench.rs: solve, miss, bonus and tick in turn, nothing else waiting. It is processor time.
import { readFileSync } from "node:fs";

const [file, runs = "31"] = process.argv.slice(2);
const EVENTS = [[0, 1], [1, 2], [2, 0], [4, 0]];
const PARAMS = [10, 3, 25];
const [PAGE, SHEET, TABLE, ROUND, EACH, WHOLE] = [65536, 8192, 34816, 2048, 20000, 100000];
// Lengths are numbers of 64 bits.
const [PARAMS_LEN, SHEET_LEN, TABLE_LEN, ROUND_LEN, ONE_COMMIT] = [32n, 8192n, 34816n, 2048n, 8n];

const { exports: e } = new WebAssembly.Instance(new WebAssembly.Module(readFileSync(file)));
const base = e.memory.grow(4) * PAGE;
const bytes = new Uint8Array(e.memory.buffer);
const text = readFileSync(new URL("../../examples/daily.sheet", import.meta.url));
const [params, sheet, table, round, commits] = [0, 64, 64 + SHEET, 64 + SHEET + TABLE, 64 + SHEET + TABLE + ROUND].map(
    (at) => base + PAGE + at);

function must(ok, what) {
    if (ok) return;
    console.error(`wasm.mjs: ${what}`);
    process.exit(1);
}

bytes.set(text, base);
const assembled = e.engine_assemble(base, BigInt(text.length), sheet, SHEET_LEN);
must(assembled >> 32n === 1n, "daily.sheet is not assembled");
PARAMS.forEach((value, k) => new DataView(e.memory.buffer).setUint32(params + 4 * k, value));
const compiled = e.engine_compile(sheet, assembled & 0xffffffffn, params, PARAMS_LEN, table, TABLE_LEN);
must(compiled === 0, "daily.sheet is not compiled");

function run() {
    must(e.engine_start(table, TABLE_LEN, round, ROUND_LEN) === 0, "no round starts");
    const from = process.cpuUsage();
    for (let k = 0; k < EACH; k++) {
        const [event, player] = EVENTS[k & 3];
        e.engine_arrive(table, TABLE_LEN, round, ROUND_LEN, event, player);
        e.engine_frame(table, TABLE_LEN, round, ROUND_LEN, WHOLE, commits, ONE_COMMIT);
    }
    const { user, system } = process.cpuUsage(from); // microseconds
    must(bytes[commits + 7] % 16 === 3, "the last event is not committed");
    return ((user + system) * 1000) / EACH;
}

for (let k = 0; k < 10; k++) run(); // until node has compiled it for speed
const times = Array.from({ length: Number(runs) }, run).sort((a, b) => a - b);
console.log([times[0], times[times.length >> 1], times[times.length - 1]].map((t) => t.toFixed(1)).join("/"));
