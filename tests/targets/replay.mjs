// Replays a record of calls in WebAssembly under node: replay.mjs FOLDER FILE, the folder having engine.mjs and
// engine.wasm.
import { readFileSync } from "node:fs";
import { resolve } from "node:path";
import { pathToFileURL } from "node:url";
import { replay } from "./record.mjs";

const [folder, file] = process.argv.slice(2);
const { load } = await import(pathToFileURL(resolve(folder, "engine.mjs")));
const engine = await load(readFileSync(resolve(folder, "engine.wasm")));
try {
    console.log(`${replay(engine, new Uint8Array(readFileSync(file)))} calls, every answer and byte as recorded`);
} catch (e) {
    console.error(e.message);
    process.exitCode = 1;
}
