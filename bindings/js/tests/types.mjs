// The declarations of engine.d.ts, by TypeScript's compiler in strict mode: they have every name of the module with its
// value, a program over the package compiles and runs, and its faults, each behind @ts-expect-error, are found.
import assert from "node:assert/strict";
import { spawnSync } from "node:child_process";
import { cpSync, mkdirSync, mkdtempSync, readFileSync, rmSync, writeFileSync } from "node:fs";
import { tmpdir } from "node:os";
import { join } from "node:path";
import { pathToFileURL } from "node:url";
import { engine, folder, lib, S } from "./common.mjs";

const PACKAGE = "poqashem-engine";
const strict = {
    strict: true, exactOptionalPropertyTypes: true, noUncheckedIndexedAccess: true, noEmitOnError: true, types: [],
    target: "es2021", outDir: "out",
};
// As a program for node resolves the package, without a browser's library; as bundlers and older programs do, with it.
const NODE = { module: "node16", moduleResolution: "node16", lib: ["es2021"] };
const BROWSER = { module: "es2022", moduleResolution: "node", lib: ["es2021", "dom"] };
const PAGE = `import { load } from "${PACKAGE}";
export const fetched = () => load(fetch("engine.wasm"));
export const compiled = async (bytes: ArrayBuffer) => load(await WebAssembly.compile(bytes));
// @ts-expect-error: neither bytes nor a module nor a Response
export const number = () => load(3);
`;

// A program that compiles only where the declarations have the names and values that the module has, and no others.
function names() {
    const list = (all) => all.map((name) => JSON.stringify(name)).join(" | ");
    const same = (one, other) => `[Exclude<${one}, ${other}>, Exclude<${other}, ${one}>]`;
    const members = (object) => list(Object.getOwnPropertyNames(Object.getPrototypeOf(object)).slice(1));
    const round = engine.open(engine.compile(S));
    const lines = [
        `import * as lib from "${PACKAGE}";`,
        `export const names: ${same("keyof typeof lib", list(Object.keys(lib)))} extends [never, never] ? 1 : 0 = 1;`,
        `export const calls: ${same("keyof lib.Engine", members(engine))} extends [never, never] ? 1 : 0 = 1;`,
        `export const round: ${same("keyof lib.Round", members(round))} extends [never, never] ? 1 : 0 = 1;`,
    ];
    for (const [name, value] of Object.entries(lib)) {
        if (typeof value === "number") lines.push(`export const of${name}: typeof lib.${name} = ${value};`);
    }
    round.free();
    return `${lines.join("\n")}\n`;
}

// What the compiler says of these files: nothing where they are right.
function compiled(room, way, files) {
    const project = { compilerOptions: { ...strict, ...way }, files };
    writeFileSync(join(room, "tsconfig.json"), JSON.stringify(project));
    const { stdout, stderr } = spawnSync("tsc", ["--project", room], { encoding: "utf8" });
    return stdout + stderr;
}

async function tried(room) {
    const installed = join(room, "node_modules", PACKAGE);
    mkdirSync(installed, { recursive: true });
    const { files } = JSON.parse(readFileSync(join(folder, "package.json"), "utf8"));
    for (const file of [...files, "package.json"]) cpSync(join(folder, file), join(installed, file)); // as npm packs it
    writeFileSync(join(room, "package.json"), '{ "type": "module" }');
    writeFileSync(join(room, "names.ts"), names());
    writeFileSync(join(room, "host.ts"), readFileSync(new URL("host.ts", import.meta.url)));
    writeFileSync(join(room, "page.ts"), PAGE);
    assert.equal(compiled(room, NODE, ["names.ts", "host.ts"]), "");
    const { play } = await import(pathToFileURL(join(room, "out", "host.js")));
    assert.equal(await play(readFileSync(join(folder, "engine.wasm"))), "7 points, event 0 of player 1");
    assert.equal(compiled(room, BROWSER, ["names.ts", "host.ts", "page.ts"]), "");
    noticed(room, join(installed, "engine.d.ts"));
}

// Declarations that are not the module's: a value, a call and a name.
function noticed(room, file) {
    let declared = readFileSync(file, "utf8");
    const changes = [["HAND: 64", "HAND: 63"], ["forecast(): ", "foresee(): "], ["function stepOf", "function of"]];
    for (const [from, to] of changes) {
        assert.ok(declared.includes(from), from);
        declared = declared.replace(from, to);
    }
    writeFileSync(file, declared);
    const said = compiled(room, NODE, ["names.ts"]);
    const lines = readFileSync(join(room, "names.ts"), "utf8").split("\n");
    const found = [...said.matchAll(/names\.ts\((\d+),/g)].map(([, line]) => lines[line - 1].match(/const (\w+)/)[1]);
    assert.deepEqual(found.sort(), ["names", "ofHAND", "round"], said);
}

const { stdout, error } = spawnSync("tsc", ["--version"], { encoding: "utf8" });
if (error) console.log("no tsc (Debian's node-typescript): the TypeScript declarations were not tried");
else {
    const room = mkdtempSync(join(tmpdir(), "types-"));
    try {
        await tried(room);
    } finally {
        rmSync(room, { recursive: true });
    }
    console.log(`the TypeScript declarations by tsc, ${stdout.trim()}, strictly: all names, a program, its faults`);
}
