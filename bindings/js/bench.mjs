// What the module costs beside the WebAssembly module's own exports: bench.mjs FOLDER SHEET PARAMETER..., the folder
// having engine.mjs and engine.wasm, the sheet as text. Events arrive and are run to their commit, a board is read, a
// step finds the round idle: by the exports with all in memory, by a Round, and by the calls on arrays. Each keeps what
// it is given. The three take turns; of each way the time is told that one turn in ten stays below. It ends with 1
// where a Round takes over 1.5 times what the exports do.
import { readFileSync } from "node:fs";
import { join, resolve } from "node:path";
import { pathToFileURL } from "node:url";

const [folder, text, ...values] = process.argv.slice(2);
const lib = await import(pathToFileURL(join(resolve(folder), "engine.mjs")));
const wasm = readFileSync(join(folder, "engine.wasm"));
const engine = await lib.load(wasm);
const table = engine.compile(engine.assemble(readFileSync(text, "utf8")), lib.parameters(values.map(Number)));
const events = engine.eventCount(table);
const rounds = 300;
const inTurn = 500; // calls in a row
const MOST = 1.5; // times the exports

const { exports: x } = (await WebAssembly.instantiate(wasm)).instance;
const T = x.memory.buffer.byteLength;
const R = T + lib.TABLE;
const C = R + lib.ROUND;
const [nT, nR] = [BigInt(lib.TABLE), BigInt(lib.ROUND)];
x.memory.grow(1);
new Uint8Array(x.memory.buffer).set(table, T);
x.engine_start(T, nT, R, nR);
const round = engine.open(table);
const bytes = engine.start(table);

const ways = {
    "arrive and frame to the commit": [
        (k) => (x.engine_arrive(T, nT, R, nR, k % events, 0), x.engine_frame(T, nT, R, nR, 1000, C, 64n)),
        (k) => (round.arrive(k % events, 0), round.frame(1000)),
        (k) => (engine.arrive(table, bytes, k % events, 0), engine.frame(table, bytes, 1000)),
    ],
    "board": [
        () => x.engine_board(T, nT, R, nR, 0, 0), () => round.board(0, 0), () => engine.board(table, bytes, 0, 0),
    ],
    "an idle step": [() => x.engine_step(T, nT, R, nR), () => round.step(), () => engine.step(table, bytes)],
};

function time(make) {
    const start = process.hrtime.bigint();
    for (let k = 0; k < inTurn; k++) globalThis.kept = make(k);
    return Number(process.hrtime.bigint() - start) / inTurn;
}

for (const [name, makes] of Object.entries(ways)) {
    const times = makes.map(() => []);
    for (let k = 0; k < rounds; k++) makes.forEach((make, way) => times[way].push(time(make)));
    const [own, kept, arrays] = times.map((all) => all.sort((a, b) => a - b)[rounds / 10]);
    const factor = (n) => `${n.toFixed(0)} ns, ${(n / own).toFixed(2)} times`;
    console.log(`${name}: exports ${own.toFixed(0)} ns, Round ${factor(kept)}, arrays ${factor(arrays)}`);
    if (kept / own > MOST) process.exitCode = 1;
}
