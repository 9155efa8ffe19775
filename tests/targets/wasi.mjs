// Runs a WASI program under node: wasi.mjs PROGRAM WORD... It may open any file; words that name one get its whole
// path, since such a program has no folder of its own.
import { existsSync, readFileSync } from "node:fs";
import { resolve } from "node:path";
import { WASI } from "node:wasi";

const [program, ...words] = process.argv.slice(2);
const args = [program, ...words.map((word) => (existsSync(word) ? resolve(word) : word))];
const wasi = new WASI({ version: "preview1", args, preopens: { "/": "/" } });
const { instance } = await WebAssembly.instantiate(readFileSync(program), wasi.getImportObject());
process.exitCode = wasi.start(instance);
