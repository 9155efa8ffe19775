// The workbench in a real browser, from opening it to two winners, and every line that it shows against `setter play`.
//
//     node tests/workbench/page.mjs WORKBENCH.html SETTER [PICTURES [PART..]]
//
// With a folder for pictures it also writes what the page looks like: light, dark and narrow. Parts that are named are
// tried alone.
import { spawnSync } from "node:child_process";
import { mkdirSync, mkdtempSync, readFileSync, readdirSync, rmSync, writeFileSync } from "node:fs";
import { tmpdir } from "node:os";
import { join, resolve } from "node:path";
import { pathToFileURL } from "node:url";
import { Browser, KEYS } from "./driver.mjs";

const [page, setter, pictures] = process.argv.slice(2, 5).map((path) => resolve(path));
const chosen = process.argv.slice(5);
const address = pathToFileURL(page).href;
const room = mkdtempSync(join(tmpdir(), "workbench-"));
const examples = resolve("examples");
const browser = await Browser.open();
let checks = 0;

function check(what, is) {
    if (!is) throw new Error(what);
    checks++;
}

function equal(what, own, other) {
    if (own !== other) throw new Error(`${what}\n--- the page\n${own}\n--- expected\n${other}`);
    checks++;
}

// ---- the page

const outcome = (state) => browser.until(`the phones are ${state}`,
    "return document.querySelector('#outcome').dataset.state === arguments[0]", state);

/** Opens the page afresh, at its story's end: with little motion that is at once. */
async function open(state = "apart", hash = "") {
    await browser.media("prefers-reduced-motion", "reduce");
    await browser.go("about:blank");
    await browser.go(address + hash);
    await outcome(state);
}

/** The page's text, scripts and lines. */
const shown = () => browser.run(`
    const all = (selector, within = document) => [...within.querySelectorAll(selector)];
    return {
        text: all("#editor .line").map((line) => line.textContent).join("\\n"),
        phones: all(".phone:is(article)").map((phone) => ({
            script: phone.querySelector(".script").value,
            lines: all(".told > *", phone).map((line) => line.textContent),
            board: all(".board tr", phone).map((row) => [row.children[0].textContent,
                [...row.children[1].children].map((cell) => cell.firstChild.data)]),
            ahead: all(".board tr", phone).map((row) => [row.children[0].textContent, row.children[2].textContent]),
        })),
    };`);

/** What setter play prints for a sheet's and a script's text, in a copy of the examples. */
function played(text, script) {
    const folder = mkdtempSync(join(room, "play-"));
    for (const name of readdirSync(examples).filter((own) => own.endsWith(".sheet"))) {
        writeFileSync(join(folder, name), readFileSync(join(examples, name)));
    }
    writeFileSync(join(folder, "own.sheet"), text);
    writeFileSync(join(folder, "own.play"), script);
    const { stdout, stderr } = spawnSync(setter, ["play", "own.sheet", "own.play"], { cwd: folder, encoding: "utf8" });
    rmSync(folder, { recursive: true });
    if (stderr !== "") throw new Error(stderr);
    return stdout.trimEnd().split(/\n(?! {8})/).slice(2); // a line and what it is folded to
}

const boardLine = (board) => `board: ${board.map(([name, cells]) =>
    `${name} ${cells.length > 1 ? `[${cells.join(" ")}]` : cells[0]}`).join(", ")}`;
const unfolded = (line) => line.trim().replace(/\s+/g, " ").replace(/^\d+ /, "");

/** Every line and every board that the page shows is what setter play gives for the same sheet and script. */
async function asPlayed(what) {
    const { text, phones } = await shown();
    phones.forEach(({ script, lines, board }, k) => {
        equal(`${what}: the lines of phone ${k}`, lines.join("\n"), played(text, `${script}\n`).slice(-300).join("\n"));
        const last = played(text, `${script}\nboard\n`).at(-1);
        equal(`${what}: the board of phone ${k}`, boardLine(board), unfolded(last));
    });
    return phones;
}

const valueOf = ({ board }, name) => board.find(([own]) => own === name)[1][0];

const nameIs = (name) => browser.until(`${name} is loaded`,
    "return document.querySelector('#sheet-name').textContent === arguments[0]", name);

/** Puts the caret at the end of a line of the text, counted from 1. */
const caretAt = (line) => browser.run(`
    const text = document.querySelectorAll("#editor .line")[arguments[0] - 1].firstChild;
    document.querySelector("#editor").focus();
    getSelection().collapse(text, text.length);`, line);

const faulty = (line) => browser.until(`line ${line} is at fault`, `
    return document.querySelectorAll("#editor .line")[arguments[0] - 1].getAttribute("data-fault")`, line);

// ---- what is tested

/** It plays itself once, and stops where the winners differ. */
async function story() {
    await browser.media("prefers-reduced-motion", "no-preference");
    await browser.go(address);
    const busy = await browser.until("the story plays", "return document.querySelector('#outcome').dataset.state");
    equal("the story begins with phones that work", busy, "busy");
    await outcome("apart");
    await browser.until("the third sentence is told",
        "return document.querySelector('#sentences').lastElementChild.className");
    const phones = await asPlayed("the story");
    equal("two winners", phones.map((phone) => valueOf(phone, "winner")).join(), "1,2");
    equal("three sentences", await browser.run("return document.querySelectorAll('#sentences li').length"), 3);
    check("both winners are marked", await browser.run("return document.querySelectorAll('.board mark').length === 4"));
    // whoever presses a button on the way ends it there
    await browser.click("#again");
    await browser.until("phone A works",
        "return document.querySelector('article .state').textContent.startsWith('hit #0 runs')");
    await browser.click("article .step");
    await browser.click("[data-event=timeup]");
    const [ended] = await asPlayed("the story, ended on the way");
    check("the script goes on from there", ended.script.endsWith("\nstep\nsend timeup"));
    await browser.media("prefers-reduced-motion", "reduce");
    await browser.click("#mend");
    await outcome("agree");
    const mended = await asPlayed("the story, mended");
    equal("one winner", mended.map((phone) => valueOf(phone, "winner")).join(), "1,1");
}

/** A slip gets its fault under its line with the hint of setter check, and is gone when it is mended. */
async function slip() {
    await open();
    await caretAt(9);
    await browser.press(..." % 2");
    const words = await faulty(9);
    const { text } = await shown();
    writeFileSync(join(room, "slip.sheet"), text);
    const { stdout } = spawnSync(setter, ["check", join(room, "slip.sheet"), "--json"], { encoding: "utf8" });
    const [{ why, hint }] = JSON.parse(stdout).faults;
    check(`the fault under its line has the setter's words: ${words}`, words.endsWith(`: ${why}\n${hint}`));
    const drawn = await browser.run(`const line = document.querySelectorAll("#editor .line")[8];
        return getComputedStyle(line, "::after").display + getComputedStyle(line, "::after").content`);
    check("and stands there", drawn.startsWith("block") && drawn.includes("there is no `%`"));
    await browser.press(...Array.from({ length: 4 }, () => KEYS.backspace));
    await browser.until("the slip is gone", "return document.querySelector('[data-fault]') === null");
    await outcome("apart");
    // what is accepted and hardly meant is warned of in the same place
    await caretAt(6);
    await browser.press(KEYS.backspace, ..."over");
    const warned = await browser.until("a warning is there",
        "return document.querySelectorAll('#editor .line')[5].getAttribute('data-warning')");
    equal("a warning", warned, "this handler writes `over` to itself: leave it out");
    await browser.press(...Array.from({ length: 4 }, () => KEYS.backspace), "1");
    await outcome("apart");
    // a rank changed in the text is played at once
    await caretAt(3);
    await browser.press(KEYS.backspace, "2");
    await outcome("agree");
    await asPlayed("an edited sheet");
}

/** Keys do to the sheet's text what they do to a plain text field. */
async function typing() {
    await open();
    await browser.run(`
        document.body.prepend(Object.assign(document.createElement("textarea"), { id: "plain", rows: 20 }))`);
    const { shift, control, left, right, up, down, home, end, enter, backspace, remove } = KEYS;
    const keys = ["a", "b", " ", "#", enter, enter, backspace, remove, left, left, right, up, down, home, end,
        [shift, left, left], [shift, right], [shift, home], [shift, down], [shift, enter], [control, home],
        [control, end], [control, "b"]];
    let state = 5;
    const draw = () => keys[(state = (state * 1103515245 + 12345) % 2 ** 31) % keys.length];
    for (let run = 0; run < 3; run++) {
        const pressed = Array.from({ length: 40 }, draw);
        for (const id of ["plain", "editor"]) {
            await browser.run("document.getElementById(arguments[0]).focus()", id);
            await browser.press([control, "a"], backspace, ...pressed);
        }
        const plain = await browser.run("return document.querySelector('#plain').value");
        equal("a text that is typed", (await shown()).text, plain);
        await browser.press([control, "a"], [control, "c"]);
        await browser.run("document.querySelector('#plain').focus()");
        await browser.press([control, "a"], [control, "v"]);
        equal("and copied", await browser.run("return document.querySelector('#plain').value"), plain);
    }
}

/** Each example with its scripts; one of them changes its sheet on the way. */
async function sheets() {
    await open();
    const names = await browser.run(
        "return [...document.querySelectorAll('#examples optgroup option')].map((option) => option.value)");
    const own = readdirSync(examples).filter((name) => name.endsWith(".sheet"));
    equal("all examples are at hand", names.sort().join(), own.sort().join());
    for (const name of names) {
        await browser.select("#examples", name);
        await nameIs(name);
        const phones = await asPlayed(name);
        check(`${name} has a script`, phones.every(({ lines }) => lines.length > 0));
    }
    await browser.select("#examples", "final.sheet");
    const [first] = (await shown()).phones;
    check("a change of sheets is told", first.lines.some((line) => line.includes("the sheet is now good-final.sheet")));
}

/** What is saved is what setter reads, and what is opened is what was saved. */
async function files() {
    await open();
    await browser.select("#examples", "auction.sheet");
    const before = await shown();
    await browser.click("#save");
    await browser.click("article:nth-child(2) summary");
    await browser.click("article:nth-child(2) .store");
    const saved = ["auction.sheet", "auction-b.play"].map((name) => join(browser.room, name));
    await saved.reduce((ready, path) => ready.then(() => there(path)), Promise.resolve());
    equal("the sheet is saved as it is", readFileSync(saved[0], "utf8"), before.text);
    const { stdout } = spawnSync(setter, ["play", ...saved], { encoding: "utf8" });
    equal("setter plays what was saved", stdout.trimEnd().split(/\n(?! {8})/).slice(2).join("\n"),
        before.phones[1].lines.join("\n"));
    await open();
    await browser.type("#files", saved.join("\n"));
    await nameIs("auction.sheet");
    const after = await asPlayed("opened files");
    equal("the script is loaded", after[0].script, before.phones[1].script);
    // a sheet's bytes, as setter build writes them
    const bytes = join(room, "auction.bin");
    spawnSync(setter, ["build", join(examples, "auction.sheet"), bytes]);
    await browser.type("#files", bytes);
    await nameIs("auction.sheet");
    await browser.until("the bytes are opened",
        "return document.querySelector('.line').textContent.startsWith('event e0')");
    equal("as the text that means them", (await shown()).text.trim(),
        spawnSync(setter, ["show", bytes], { encoding: "utf8" }).stdout.trim());
}

async function there(path) {
    const end = Date.now() + 120_000;
    for (;;) {
        try {
            return readFileSync(path);
        } catch {
            if (Date.now() > end) throw new Error(`${path} was not saved`);
            await new Promise((done) => setTimeout(done, 50));
        }
    }
}

/** A link to a state opens that state, without the story. */
async function links() {
    await open();
    await browser.select("#examples", "duel.sheet");
    await browser.select("#look", "2");
    await browser.click("#link");
    const link = await browser.until("the address is there", "return document.querySelector('#address').value");
    const before = await shown();
    await browser.go("about:blank");
    await browser.go(link);
    await nameIs("duel.sheet");
    const after = await shown();
    equal("the same state", JSON.stringify(after), JSON.stringify(before));
    equal("a hidden hand is hidden", valueOf(after.phones[0], "hand1"), "hidden");
    check("the story does not play", await browser.run("return document.querySelector('#story').hidden"));
    await open("apart", "#1damaged");
    await open("apart", "#nothing");
}

/** Two phones that part are found and loaded with one press; buttons, preview and a tick that breaks in. */
async function phones() {
    await open();
    await browser.select("#examples", "auction.sheet");
    await browser.click("#fresh");
    await outcome("none");
    await browser.click("#part");
    await outcome("apart");
    await asPlayed("a pair that parts");
    await browser.click("#fresh");
    await browser.hover("[data-event=tick]");
    const { text, phones: [{ ahead }] } = await shown();
    const values = ahead.map(([name, to]) => `${name} ${to.slice(2)}`).join(", ");
    equal("the preview", `preview of tick from the host: ${values}`, unfolded(played(text, "preview tick\n")[0]));
    await browser.select("#sender", "2");
    await browser.click("[data-event=bid1]");
    const [refused] = (await shown()).phones;
    check("and is known to be", await browser.run(
        "return document.querySelector('[data-event=bid1]').title.startsWith('no right (25)')"));
    check("a move without the right is refused", refused.lines.at(-1).includes("refused, no right (25)"));
    await browser.select("#sender", "1");
    await browser.click("[data-event=bid1]");
    await browser.select("#sender", "0");
    await browser.click("#tick");
    const [{ lines }] = await asPlayed("a tick that breaks in");
    check("it breaks in", lines.at(-1).includes("tick #1 breaks in: bid1 #0 drops its work"));
    await browser.click("article:nth-child(1) .step");
    await browser.click("article:nth-child(2) .frame");
    await browser.run("document.querySelectorAll('.run').forEach((button) => button.click())");
    await outcome("agree");
    await asPlayed("steps, frames and runs");
    const drawn = await browser.run("return document.querySelectorAll('#timeline rect').length");
    equal("the timeline has both phones' stretches", drawn, 6);
}

/** From the address bar on with the keyboard alone. */
async function keyboard() {
    await open();
    const reach = async (selector) => {
        for (let k = 0; k < 60; k++) {
            await browser.press(KEYS.tab);
            if (await browser.run("return document.activeElement.matches(arguments[0])", selector)) return;
        }
        throw new Error(`the keyboard does not reach ${selector}`);
    };
    await reach("#own");
    await browser.press(KEYS.enter);
    await browser.until("a sheet to begin with", "return document.activeElement.id === 'editor'");
    await browser.press([KEYS.control, KEYS.end], ..."active more = 1");
    await browser.until("it is accepted",
        "return [...document.querySelectorAll('.board th')].some((name) => name.textContent === 'more')");
    await reach("[data-event=hit]");
    check("the preview shows where the focus is", (await shown()).phones[0].ahead.some(([, to]) => to === "→ 10"));
    await browser.press(KEYS.enter);
    await outcome("busy");
    await reach("article:nth-child(1) .frame");
    await browser.press(KEYS.enter);
    await reach("article:nth-child(1) .run");
    await browser.press(KEYS.space);
    await reach("article:nth-child(2) .run");
    await browser.press(KEYS.enter);
    await outcome("agree");
    await asPlayed("the keyboard alone");
    check("what happened is announced", (await browser.text("#said")).startsWith("Phone B: hit #0 starts"));
}

/** All that can have the focus has a name and a role, and nothing is wider than a phone. */
async function named() {
    await open();
    await browser.select("#examples", "daily.sheet");
    const { nodes } = await browser.tools("Accessibility.getFullAXTree", {});
    const focusable = nodes.filter((node) => !node.ignored && node.role?.value !== "RootWebArea" &&
        (node.properties ?? []).some(({ name, value }) => name === "focusable" && value.value));
    const nameless = focusable.filter(({ name }) => (name?.value ?? "").trim() === "");
    check(`${focusable.length} can have the focus`, focusable.length > 25);
    equal("without a name", nameless.map(({ role }) => role.value).join(), "");
    await browser.size(360, 740);
    const [wide, room_] = await browser.run("return [document.documentElement.scrollWidth, innerWidth]");
    check(`the page is ${wide} wide on a phone of ${room_}`, wide <= room_);
    await browser.tools("Emulation.clearDeviceMetricsOverride", {});
}

// The texts whose colour is too near to what is behind them: a contrast under 4.5.
const FAINT = `
    const parts = (colour) => colour.match(/[\\d.]+/g).map(Number);
    const light = (value) => (value <= 10 ? value / 3294 : ((value / 255 + 0.055) / 1.055) ** 2.4);
    const luminance = ([r, g, b]) => 0.2126 * light(r) + 0.7152 * light(g) + 0.0722 * light(b);
    const opaque = (node) => (parts(getComputedStyle(node).backgroundColor)[3] ?? 1) === 1;
    const behind = (node) => (node === null || opaque(node) ? node : behind(node.parentElement));
    const written = (node) => [...node.childNodes].some((child) => child.nodeType === 3 && child.data.trim() !== "");
    const faint = (node) => {
        const { color, fill } = getComputedStyle(node);
        const own = luminance(parts(node.namespaceURI.endsWith("svg") ? fill : color));
        const ground = luminance(parts(getComputedStyle(behind(node)).backgroundColor));
        return (Math.max(own, ground) + 0.05) / (Math.min(own, ground) + 0.05) < 4.5;
    };
    document.querySelectorAll("details").forEach((node) => (node.open = true));
    const left = ":is([hidden], template, script, title, .hidden, .on), :is([hidden], template, .hidden) *";
    const texts = [...document.querySelectorAll("body *")].filter((node) => !node.matches(left) && written(node));
    return [texts.length, texts.filter(faint).map((node) => node.textContent)];`;

/** What is written can be read, in light and in dark. */
async function readable() {
    for (const value of ["light", "dark"]) {
        await browser.tools("Emulation.setEmulatedMedia", { features: [
            { name: "prefers-color-scheme", value }, { name: "prefers-reduced-motion", value: "reduce" }] });
        await browser.go("about:blank");
        await browser.go(address);
        await outcome("apart");
        const [count, faint] = await browser.run(FAINT);
        check(`${count} texts are looked at`, count > 80);
        equal(`too faint in ${value}`, faint.join("\n"), "");
        await browser.run("document.querySelector('#outcome').style.color = 'rgb(128, 128, 128)'");
        check("what is too faint is found", (await browser.run(FAINT))[1].length > 0);
    }
}

/** What a text, a file's name or an address holds is shown as it is, and is never markup. */
async function hostile() {
    const mark = "<img src=x onerror=\"window.hurt=1\"><b>bold</b>";
    const sheet = join(room, "<b>mark<b>.sheet");
    const script = join(room, "mark.play");
    writeFileSync(sheet, `# ${mark}\nevent hit rank 2\nactive points = 0\n  on hit: points + 1\n`);
    writeFileSync(script, `send hit # ${mark}\nrun\nsend ${mark}\n`);
    await open();
    await browser.type("#files", `${sheet}\n${script}`);
    await nameIs("<b>mark<b>.sheet");
    const none = async (what) => equal(what, await browser.run(`
        const found = document.querySelectorAll("img, b, #editor .line *:not(br), iframe, object");
        return found.length + String(window.hurt)`), "0undefined");
    await none("a file's markup");
    check("the script's markup is told", (await browser.text("article .failure")).includes("<img"));
    await caretAt(2);
    await browser.press(KEYS.enter, ...mark);
    await faulty(3);
    await none("typed markup");
    await browser.run(`const data = new DataTransfer();
        data.setData("text/html", arguments[0]);
        data.setData("text/plain", arguments[0] + "\\n" + arguments[0]);
        const event = new ClipboardEvent("paste", { clipboardData: data, bubbles: true, cancelable: true });
        document.querySelector("#editor").dispatchEvent(event);`, mark);
    await none("pasted markup");
    const bold = (await shown()).text.split("\n").filter((line) => line.includes("<b>bold"));
    equal("it is two lines of text more", bold.length, 3);
    await browser.click("#link");
    const link = await browser.until("the address is there", "return document.querySelector('#address').value");
    await browser.go("about:blank");
    await browser.go(link);
    await nameIs("<b>mark<b>.sheet");
    await none("an address's markup");
    // a script without end is turned down, and the page goes on
    writeFileSync(script, "repeat 100000 send hit, run\n".repeat(1000));
    await browser.type("#files", `${sheet}\n${script}`);
    await browser.until("it is turned down",
        "return document.querySelector('article .failure').textContent.includes('more statements than')");
}

/** The policy forbids what is not the page's own: a planted script does not run, and nothing is asked for. */
async function policy() {
    const planted = "<script>window.planted = 1</script>" +
        "<p id=foreign onclick='window.planted = 2' style='color: rgb(1, 2, 3)'>planted</p>";
    const source = readFileSync(page, "utf8");
    const [, allowed] = /http-equiv="Content-Security-Policy" content="([^"]*)"/.exec(source);
    equal("the policy", allowed.replaceAll(/'sha256-[\w+/=]{44}'/g, "HASH"), "default-src 'none'; " +
        "script-src HASH 'wasm-unsafe-eval'; style-src HASH; base-uri 'none'; form-action 'none'");
    const tried = async (text, name) => {
        const path = join(room, name);
        writeFileSync(path, text.replace("<body>", `<body>${planted}`));
        await browser.media("prefers-reduced-motion", "reduce");
        await browser.go(pathToFileURL(path).href);
        await outcome("apart");
        await browser.run("document.querySelector('#foreign').click()");
        const script = "const [done] = arguments; fetch('data:,x').then(() => done('asked'), () => done('not asked'))";
        const asked = await browser.at("POST", "/execute/async", { script, args: [] });
        return `${await browser.run(`return String(window.planted)
            + getComputedStyle(document.querySelector("#foreign")).color`)} ${asked}`;
    };
    const held = await tried(source, "held.html");
    check(`nothing planted runs: ${held}`, held.startsWith("undefined") && !held.includes("(1, 2, 3)"));
    check("nothing is asked for", held.endsWith("not asked"));
    const open_ = await tried(source.replace(/<meta http-equiv="Content-Security-Policy"[^>]*>/, ""), "open.html");
    equal("without the policy it does", open_, "2rgb(1, 2, 3) asked");
    await browser.complaints();
}

async function looks() {
    mkdirSync(pictures, { recursive: true });
    const take = async (name, width, height, scheme) => {
        await browser.tools("Emulation.setEmulatedMedia", { features: [
            { name: "prefers-color-scheme", value: scheme }, { name: "prefers-reduced-motion", value: "reduce" }] });
        await browser.size(width, height);
        await browser.go("about:blank");
        await browser.go(address);
        await outcome("apart");
        writeFileSync(join(pictures, `${name}.png`), await browser.picture());
    };
    await take("workbench-light", 1120, 1060, "light");
    await take("workbench-dark", 1120, 1060, "dark");
    await take("workbench-narrow", 375, 1500, "light");
}

const parts = { story, slip, typing, sheets, files, links, phones, keyboard, named, readable, hostile, policy };
if (pictures !== undefined) parts.looks = looks;
let [failed, tried] = ["", 0];
try {
    for (const [name, part] of Object.entries(parts)) {
        if (chosen.length > 0 && !chosen.includes(name)) continue;
        tried++;
        await part().catch((error) => { throw new Error(`${name}: ${error.message}`); });
        const complaints = await browser.complaints();
        if (complaints.length > 0) throw new Error(`${name}: the browser complains: ${complaints.join("\n")}`);
    }
} catch (error) {
    failed = error.message;
}
await browser.close();
rmSync(room, { recursive: true, force: true });
if (failed !== "") {
    console.error(`workbench: ${failed}`);
    process.exit(1);
}
console.log(`workbench: ${tried} parts in the browser, ${checks} checks`);
