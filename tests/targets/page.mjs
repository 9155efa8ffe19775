// The npm package in a page in Chromium: page.mjs FOLDER RECORD, the folder having engine.mjs and engine.wasm. The
// page, under a policy that allows scripts of its own and WebAssembly alone, compiles the module while it is received,
// replays the record of calls, and plays a round in its frames; a worker, whose stack is smaller, plays the same round
// from what the page saved, also after a formula that its stack has no room for. The page tells this program what it
// found.
import { spawn } from "node:child_process";
import { mkdtempSync, readFileSync, rmSync } from "node:fs";
import { createServer } from "node:http";
import { tmpdir } from "node:os";
import { join } from "node:path";

const [folder, record] = process.argv.slice(2);
const TYPES = { html: "text/html", mjs: "text/javascript", wasm: "application/wasm" };
const POLICY = "default-src 'self'; script-src 'self' 'wasm-unsafe-eval'";
const LIMIT = 240_000; // ms

const SCRIPT = `import { load, FRAME_IDLE, FRAME_REFUSED } from "./engine.mjs";
import { replay } from "./record.mjs";
const tell = (found) => fetch("/found", { method: "POST", body: JSON.stringify(found) });
try {
    const engine = await load(fetch("engine.wasm"));
    const sheet = engine.assemble("event hit rank 1 active score = 5 on hit: score + 10");
    const table = engine.compile(sheet);
    const round = engine.open(table);
    for (let k = 0; k < 70; k++) round.deliver(k, 0, 1);
    const saved = round.bytes();
    let frames = 0;
    for (let end; end !== FRAME_IDLE; frames++) {
        await new Promise(requestAnimationFrame);
        ({ end } = round.frame(50));
        if (end === FRAME_REFUSED) throw new Error("a step was refused");
    }
    const score = round.boardAfter(70, 1).board[0];
    const calls = replay(engine, new Uint8Array(await (await fetch("record")).arrayBuffer()));
    const worker = new Worker("worker.mjs", { type: "module" });
    worker.onerror = (e) => tell({ error: e.message });
    worker.onmessage = ({ data }) => tell({ score, frames, calls, ...data });
    worker.postMessage({ table, saved });
} catch (e) {
    tell({ error: String(e) });
}`;
const WORKER = `import { load } from "./engine.mjs";
const engine = load(fetch("engine.wasm"));
onmessage = async ({ data: { table, saved } }) => {
    let deepest = "runs";
    try {
        const round = (await engine).resume(table, saved);
        try {
            (await engine).formula("(".repeat(511) + "b0" + ")".repeat(511));
        } catch (e) {
            if (!(e instanceof RangeError)) throw e;
            deepest = "throws";
        }
        postMessage({ again: round.boardAfter(70, 1).board[0], deepest });
    } catch (e) {
        postMessage({ error: String(e) });
    }
};`;
const FILES = new Map([
    ["/index.html", `<!doctype html><title>engine</title><script type="module" src="page.mjs"></script>`],
    ["/page.mjs", SCRIPT],
    ["/worker.mjs", WORKER],
    ["/engine.mjs", readFileSync(join(folder, "engine.mjs"))],
    ["/engine.wasm", readFileSync(join(folder, "engine.wasm"))],
    ["/record.mjs", readFileSync(new URL("record.mjs", import.meta.url))],
    ["/record", readFileSync(record)],
]);

const room = mkdtempSync(join(tmpdir(), "page-"));
let browser;

function done(code, words) {
    (code === 0 ? console.log : console.error)(words);
    browser?.kill();
    server.close();
    process.exitCode = code;
    setTimeout(() => {
        rmSync(room, { recursive: true, force: true, maxRetries: 5 });
        process.exit();
    }, 500);
}

function found(body) {
    const { error, score, again, frames, calls, deepest } = JSON.parse(body);
    if (error !== undefined) return done(1, `the page in Chromium: ${error}`);
    if (score !== 705 || again !== 705 || frames < 2) {
        return done(1, `the page in Chromium: score ${score} after ${frames} frames, and ${again} in a worker`);
    }
    const worker = `the same round in a worker, where the deepest formula ${deepest}`;
    return done(0, `${calls} calls, every answer and byte as recorded; a round in ${frames} frames; ${worker}`);
}

const server = createServer(async (request, response) => {
    if (request.method === "POST") {
        let body = "";
        for await (const part of request) body += part;
        response.end();
        found(body);
        return;
    }
    const file = FILES.get(request.url);
    const headers = { "content-security-policy": POLICY };
    const type = TYPES[request.url.slice(request.url.lastIndexOf(".") + 1)];
    response.writeHead(file === undefined ? 404 : 200, type ? { ...headers, "content-type": type } : headers).end(file);
});
server.listen(0, "127.0.0.1", () => {
    const words = ["--headless=new", "--no-sandbox", "--disable-gpu", "--no-first-run", `--user-data-dir=${room}`];
    const page = `http://127.0.0.1:${server.address().port}/index.html`;
    browser = spawn("chromium", [...words, page], { stdio: "ignore" });
    browser.on("error", (e) => done(1, `chromium: ${e.message}`));
    setTimeout(() => done(1, "the page in Chromium told nothing"), LIMIT).unref();
});
