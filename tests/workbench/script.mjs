// The page's player of scripts against `setter play`, and its words of faults against `setter check`.
//
//     node tests/workbench/script.mjs ENGINE.wasm SETTER
//
// Every sheet of examples with every script that names only what it has prints the same lines by both, and every
// example with slips put in gets the same faults, words and hints. What is told of two phones stands in the report of
// `setter check`, and a search finds the two scripts that `setter differ` writes, or none as well.
import { execFileSync, spawnSync } from "node:child_process";
import { mkdtempSync, readFileSync, rmSync, writeFileSync } from "node:fs";
import { tmpdir } from "node:os";
import { join, resolve } from "node:path";
import { load } from "../../bindings/js/engine.mjs";
import { partingPair, partingScripts } from "../../bindings/workbench/apart.mjs";
import { faults } from "../../bindings/workbench/faults.mjs";
import { phoneLines } from "../../bindings/workbench/meets.mjs";
import { readScript } from "../../bindings/workbench/script.mjs";
import { loadSheet } from "../../bindings/workbench/sheet.mjs";
import { transcript } from "../../bindings/workbench/stage.mjs";
import { verdict } from "../../bindings/workbench/verdict.mjs";
import { warnings } from "../../bindings/workbench/warnings.mjs";
import { several, useData, words } from "../../bindings/workbench/words.mjs";

const [wasm, setter] = process.argv.slice(2).map((path) => resolve(path));
const engine = await load(readFileSync(wasm));
const data = JSON.parse(execFileSync("bindings/workbench/build.py", ["--data"], { maxBuffer: 1 << 24 }));
useData(data);

const room = mkdtempSync(join(tmpdir(), "workbench-"));
process.on("exit", () => rmSync(room, { recursive: true, force: true }));
for (const [name, text] of Object.entries(data.files)) writeFileSync(join(room, name), text);

function fail(what, one, other) {
    console.error(`workbench: ${what}\n--- setter\n${one}\n--- the page\n${other}`);
    process.exit(1);
}

const run = (...words) => spawnSync(setter, words, { cwd: room, encoding: "utf8", maxBuffer: 1 << 26 });
const bytesOf = (name) => (name in data.files ? new TextEncoder().encode(data.files[name]) : undefined);

function played(sheet, script) {
    const place = { engine, path: script, given: [], file: bytesOf };
    try {
        const statements = readScript(bytesOf(script), place);
        return transcript(engine, loadSheet(engine, sheet, bytesOf(sheet)), script, statements);
    } catch (failure) {
        if (failure.name !== "Failure") throw failure;
        return { lines: [], failure };
    }
}

/** All that a play prints, and what it ends with, by both; and whether anything was played. */
function bothPlays(sheet, script) {
    const { lines, failure } = played(sheet, script);
    const real = run("play", sheet, script);
    const known = lines.length > 1 || failure === undefined;
    const own = `${known ? `${lines.join("\n")}\n` : ""}${failure?.message ?? ""}`;
    return { known, own, real: real.stdout + real.stderr.replace(/^setter: /, "").trimEnd() };
}

/** The faults of a text by both, and how many there are. */
function bothFaults(text) {
    writeFileSync(join(room, "slip.sheet"), text);
    const real = JSON.parse(run("check", "slip.sheet", "--json").stdout);
    const own = faults(engine, text);
    const plain = (list) => JSON.stringify(list.map(({ kind, line, column, why, hint }) =>
        [kind, line, column, why, hint ?? null]), undefined, 1);
    const told = real.accepted ? warnings(text).map(({ line, column, words }) => `${line}:${column}: ${words}`) : [];
    return {
        count: own.length + told.length,
        own: plain(own) + JSON.stringify(told),
        real: plain(real.faults ?? []) + JSON.stringify(real.warnings ?? []),
    };
}

function same(what, { own, real }) {
    if (own !== real) fail(what, real, own);
}

// ---- scripts

const sheets = Object.keys(data.files).filter((name) => name.endsWith(".sheet"));
const scripts = Object.keys(data.files).filter((name) => name.endsWith(".play"));
let count = 0;
for (const sheet of sheets) {
    for (const script of scripts) {
        const both = bothPlays(sheet, script);
        same(`${sheet} with ${script}`, both);
        if (both.known) count++;
    }
}
if (count < scripts.length) fail("too few scripts are played", scripts.length, count);

// ---- slips: one byte or word of an example changed, from a fixed seed

let state = 1n;
function draw(n) {
    state = (state * 6364136223846793005n + 1442695040888963407n) & (2n ** 64n - 1n);
    return Number((state >> 33n) % BigInt(n));
}
const SLIPS = ["%", "=", "&", "and", "(", ")", ",", "if(", "-", "max(", "\u2013", "\u00e4", "event", "on", "[0]", "1.5",
    "then", ";", "//", "'", "<>", "++", "seen by", "later", "rank 16", "3000000000", "hti", "param x", "\n", "row",
    ":"];
function slipped(text) {
    const at = draw(text.length);
    const to = at + draw(4);
    return text.slice(0, at) + (draw(3) === 0 ? "" : ` ${SLIPS[draw(SLIPS.length)]} `) + text.slice(to);
}
let found = 0;
const tries = 400;
// what is written so and hardly meant
const ODD = ["if(1, a, 2)", "(a > 1) < 5", "!(a > 1 && 0)", "2 == 1 + 1", "(a == 1) >= 0", "a && 2 > 3",
    "if(a, 1, 2) > 2", "(a < 3) * 2 > 2", "a > 0", "a * 2147483647 > 0", "a / a == 1", "0 < a < 5", "a == 1 == 1",
    "a < 1 == a < 2", "a", "p", "if(a < 1, a < 2, (a < 3)) > a + (a < 4)", "if(a > 0, a, 1 < 0)",
    "-2147483648 * -1 > 0", "0 - 5 < 0 || a", "b != b"];
for (const formula of ODD) {
    const text = `param p = 1\nevent e rank 1\nevent f rank 1\nactive a = 0 seen by nobody\n  on e: ${formula}\n`
        + `active b = 0\n  on e: b\npassive c = 1 + ${formula.replace("p", "2")}\n`
        + "row r[3] = 0 seen by nobody\n  on e: r\n";
    const both = bothFaults(new TextEncoder().encode(text));
    same(`what is odd in ${formula}`, both);
    if (both.count < 2) fail(`too little is odd in ${formula}`, 2, both.count);
}
for (let k = 0; k < tries; k++) {
    const text = slipped(data.files[sheets[draw(sheets.length)]]);
    const both = bothFaults(new TextEncoder().encode(draw(2) === 0 ? text : slipped(text)));
    same("the faults of a text", both);
    found += both.count;
}
if (found < tries / 2) fail("too few slips are faults", tries, found);

// ---- two phones: the examples, and small sheets as setters write them

const BOARDS = 400;
async function bothPhones(name) {
    const sheet = loadSheet(engine, name, bytesOf(name));
    const lines = phoneLines(sheet, verdict(engine, sheet));
    const winner = sheet.groups.find((group) => group.name === "winner");
    const asked = { boards: BOARDS, winners: winner ? [winner.first] : [], pause: async () => {} };
    const { found: two, looked, all } = await partingPair(engine, sheet, asked);
    const named = winner ? ["--winner", "winner"] : [];
    const report = run("check", name, "--boards", String(BOARDS)).stdout.replace(/\s+/g, " "); // it folds lines
    const missing = lines.filter((line) => !report.includes(` ${line} `));
    if (missing.length > 0) fail(`${name}: two phones`, report, missing.join("\n"));
    const apart = lines[0] === data.hints["phones.apart"];
    for (const k of [1, 2]) rmSync(join(room, `out-${k}.play`), { force: true });
    const told = run("differ", name, "out", "--boards", String(BOARDS), ...named).stdout;
    if (two === undefined) {
        const none = words(all ? "search.all" : "search.first", several(looked, "board", "boards"));
        if (apart && !told.includes(none)) fail(`${name}: none is found`, told, none);
        return 0;
    }
    const written = [1, 2].map((k) => readFileSync(join(room, `out-${k}.play`), "utf8").split("\n").slice(1, -1));
    same(`${name}: two scripts`, {
        own: JSON.stringify(partingScripts(engine, sheet, two)), real: JSON.stringify(written) });
    return 1;
}

const FORMULAS = ["1", "S + 2", "S - 1", "!S", "if(F, S, S + 10)", "if(S >= 3, 0, S + 1)", "S + F", "S * 2", "F"];
function drawnSheet() {
    const names = ["a", "b", "c"].slice(0, 2 + draw(2));
    const events = ["hit", "tick", "time"].slice(0, 2 + draw(2));
    const rank = () => [1, 2, 9][draw(3)];
    const handler = (own, event) => {
        const formula = FORMULAS[draw(FORMULAS.length)];
        const other = names[draw(names.length)];
        return `  on ${event}: ${formula.replaceAll("S", own).replaceAll("F", other)}\n`;
    };
    const behaviour = (own) => {
        const handled = events.filter(() => draw(3) > 0).map((event) => handler(own, event));
        return `active ${own} = ${draw(3)}\n${handled.join("")}`;
    };
    const passive = draw(2) === 0 ? "passive winner = if(a > b, 1, 2)\n" : "";
    const declared = events.map((event) => `event ${event} rank ${rank()}\n`);
    return [...declared, ...names.map(behaviour), passive].join("");
}

let parted = 0;
for (const sheet of sheets) parted += await bothPhones(sheet);
for (let k = 0; k < 40; k++) {
    data.files["drawn.sheet"] = drawnSheet();
    writeFileSync(join(room, "drawn.sheet"), data.files["drawn.sheet"]);
    if (run("build", "drawn.sheet", "drawn.bin").status === 0 && run("check", "drawn.sheet").status === 0) {
        parted += await bothPhones("drawn.sheet");
    }
}
if (parted < 10) fail("too few pairs part", 10, parted);

// ---- a planted difference is found, in a sheet, in a word of refusals and in a hint

const plants = [
    [() => (data.files["final.sheet"] = data.files["final.sheet"].replace("+ 10", "+ 11")), "final.sheet"],
    [() => (data.refusals[19][1] = "planted"), "good-final.sheet"],
];
data.files["planted.play"] = "send hit\nsteps 12\nboard\nrun\nboard\n";
writeFileSync(join(room, "planted.play"), data.files["planted.play"]);
for (const [plant, sheet] of plants) {
    same(`${sheet} before it is changed`, bothPlays(sheet, "planted.play"));
    plant();
    const { own, real } = bothPlays(sheet, "planted.play");
    if (own === real) fail(`a planted difference in ${sheet} was not found`, real, own);
}
const slip = new TextEncoder().encode("event hit rank 2\nactive a = 0\n  on hit: a % 2\n");
same("a slip before a hint is changed", bothFaults(slip));
data.hints["operator.remainder"] = "planted";
const { own, real } = bothFaults(slip);
if (own === real) fail("a planted hint was not found", real, own);
data.hints["warn.own"] = "planted";
const own_ = bothFaults(new TextEncoder().encode("event e rank 1\nactive a = 0\n  on e: a\n"));
if (own_.own === own_.real) fail("a planted warning was not found", own_.real, own_.own);
console.log(`workbench: ${count} scripts print setter play's lines; ${found} faults of ${tries} slips have its words;`,
    `${parted} pairs that part are those of setter differ`);
