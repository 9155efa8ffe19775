// The workbench: a sheet's text, what the engine states of it, and two phones that play it.
import { partingPair, partingScripts } from "./apart.mjs";
import { element, one, save, wait } from "./dom.mjs";
import { Editor } from "./editor.mjs";
import { faults } from "./faults.mjs";
import { Library, MENDED, STORY } from "./library.mjs";
import { packed, unpacked } from "./link.mjs";
import { outcomeOf } from "./outcome.mjs";
import { Phone } from "./phone.mjs";
import { showRefusal, showVerdict } from "./report.mjs";
import { isSheet, loadSheet } from "./sheet.mjs";
import { answered } from "./stage.mjs";
import { Story } from "./story.mjs";
import { draw } from "./timeline.mjs";
import { verdict } from "./verdict.mjs";
import { warnings } from "./warnings.mjs";
import { listed, long, player, refusal, several, words } from "./words.mjs";

const BOARDS = 5000; // that the search for two phones that part looks at
const TYPING = 60; // thousandths of a second without a key, before a text is judged
const PLAYERS = [0, 1, 2, 3, 4, 5, 6, 7];
const OWN = "# My sheet.\nevent hit  rank 2\nevent tick rank 9\n\nactive points = 0\n  on hit: points + 10\n\n"
    + "active clock = 60\n  on tick: clock - 1\n";

export class Bench {
    constructor(engine, files) {
        this.engine = engine;
        this.library = new Library(engine, files);
        Object.assign(this, { name: "", sheet: undefined, given: [], look: 0, sender: 0, hover: undefined });
        this.phones = [new Phone(this.seen(), "A", 8), new Phone(this.seen(), "B", 8)];
        one("#pair").replaceChildren(...this.phones.map((phone) => phone.root));
        this.editor = new Editor(one("#editor"), () => this.typed());
        this.story = new Story(this);
        this.library.list();
        this.controls();
    }

    /** What a phone sees of the bench. */
    seen() {
        const bench = this;
        return {
            get engine() { return bench.engine; },
            get sheet() { return bench.sheet; },
            get look() { return bench.look; },
            get given() { return bench.given; },
            get file() { return (name) => bench.bytesOf(name); },
            acted: () => bench.story.stop(),
            changed: () => bench.changed(),
            say: (told) => bench.say(told),
            store: (phone) => bench.store(phone),
        };
    }

    controls() {
        const on = (selector, kind, act) => one(selector).addEventListener(kind, act);
        on("#examples", "change", (event) => this.example(event.target.value));
        on("#open", "click", () => one("#files").click());
        on("#files", "change", (event) => this.opened([...event.target.files]));
        on("#save", "click", () => save(this.name, this.editor.text));
        on("#link", "click", () => this.linked());
        on("#again", "click", () => this.story.tell(this.story.sheet));
        on("#mend", "click", () => this.story.tell(this.story.sheet === STORY ? MENDED : STORY));
        on("#own", "click", () => this.begin());
        on("#part", "click", () => this.part());
        on("#tick", "click", () => this.breakIn());
        on("#fresh", "click", () => this.fresh());
        on("#look", "change", (event) => this.looked(Number(event.target.value)));
        on("#sender", "change", (event) => this.sends(Number(event.target.value)));
        for (const id of ["#look", "#sender"]) {
            one(id).replaceChildren(...PLAYERS.map((n) => element("option", { value: n }, player(n))));
        }
        addEventListener("hashchange", () => this.address());
        addEventListener("resize", () => this.draw());
    }

    // ---- the sheet

    bytesOf(name) {
        return name === this.name ? new TextEncoder().encode(this.editor.text) : this.library.bytes(name);
    }

    /** A sheet's text and the scripts of both phones take the place of what is there. */
    useSheet(name, text, scripts, given = []) {
        Object.assign(this, { name, given });
        one("#sheet-name").textContent = name;
        this.library.choose(name, text);
        this.phones.forEach((phone, k) => (phone.script = scripts[k]));
        this.editor.text = text;
        this.judge();
    }

    typed() {
        this.story.stop();
        clearTimeout(this.timer);
        this.timer = setTimeout(() => this.judge(), TYPING);
    }

    /** Judges the text; where it is accepted, both scripts are played on it. */
    judge() {
        clearTimeout(this.timer);
        const bytes = new TextEncoder().encode(this.editor.text);
        const found = faults(this.engine, bytes).map((fault) => ({ ...fault, words: wordsOf(fault) }));
        const sheet = found.length === 0 ? loadSheet(this.engine, this.name, bytes) : undefined;
        if (sheet !== undefined) {
            this.given = this.given.filter(([name, value]) => sheet.set(name, value));
            found.push(...uncompiled(sheet));
        }
        this.editor.show(found, found.length > 0 ? [] : warnings(bytes), bytes);
        if (found.length > 0) this.refused(found);
        else this.accepted(sheet);
    }

    refused(found) {
        showRefusal(found, this.sheet !== undefined);
        this.say(`Line ${found[0].line}: ${found[0].words}`);
        this.changed();
    }

    accepted(sheet) {
        this.sheet = sheet;
        this.showParams();
        showVerdict(sheet, verdict(this.engine, sheet));
        this.showEvents();
        this.replay();
    }

    /** Plays both scripts from the start. */
    replay() {
        this.quiet = true;
        this.phones.forEach((phone) => phone.play(phone.script));
        this.quiet = false;
        this.changed();
    }

    showParams() {
        const box = one("#params");
        box.hidden = this.sheet.params.length === 0;
        const names = this.sheet.params.map(({ name }) => name).join();
        if (box.dataset.names === names && box.contains(document.activeElement)) return;
        box.dataset.names = names;
        const field = ({ name, value }) => element("label", { class: "field" }, `${name} `, element("input", {
            type: "number", value: value ?? "", min: -2147483648, max: 2147483647,
            change: (event) => this.setParam(name, event.target.value),
        }));
        box.replaceChildren(...this.sheet.params.map(field));
    }

    setParam(name, text) {
        const value = Number(text);
        this.given = this.given.filter(([own]) => own !== name);
        if (text !== "" && value === (value | 0)) this.given.push([name, value]);
        this.judge();
    }

    /** Two phones that part, looked for and loaded. */
    async part() {
        this.story.stop();
        const { sheet } = this;
        const told = one("#part-told");
        one("#part").disabled = true;
        const pause = async (boards) => {
            told.textContent = `${long(boards)} boards …`;
            await wait(0);
        };
        const winners = sheet.groups.filter(({ name }) => name === "winner").map(({ first }) => first);
        const { found, looked, all } = await partingPair(this.engine, sheet, { boards: BOARDS, winners, pause });
        one("#part").disabled = false;
        if (sheet !== this.sheet) return;
        const none = words(all ? "search.all" : "search.first", several(looked, "board", "boards"));
        told.textContent = found === undefined ? none : `Found on board ${long(looked)}; both scripts are loaded.`;
        if (found === undefined) return;
        one("#story").hidden = true;
        partingScripts(this.engine, sheet, found).forEach((script, k) => (this.phones[k].script = script));
        this.replay();
        this.say(one("#outcome").textContent);
    }

    // ---- moves

    showEvents() {
        const { sheet, engine } = this;
        const table = sheet.compile();
        const ranks = sheet.events.map((_, event) => engine.eventRank(table, event));
        const button = (name, k) => element("button", {
            type: "button", "data-event": name, click: () => this.send(name),
            mouseenter: () => this.preview(name), mouseleave: () => this.preview(undefined),
            focus: () => this.preview(name), blur: () => this.preview(undefined),
        }, name, element("small", {}, ` ${ranks[k]}`, element("span", { class: "hidden" }, " is its rank")));
        one("#events").replaceChildren(...sheet.events.map(button));
        this.showRights();
        const select = one("#tick-event");
        const chosen = select.value;
        select.replaceChildren(...sheet.events.map((name) => element("option", { value: name }, name)));
        const urgent = sheet.events[ranks.indexOf(Math.max(...ranks))] ?? "";
        select.value = sheet.events.includes(chosen) && select.dataset.sheet === this.name ? chosen : urgent;
        select.dataset.sheet = this.name;
    }

    /** Which events the sheet does not let the sender send: they can be pressed, and are refused. */
    showRights() {
        const round = this.engine.open(this.sheet.compile());
        this.sheet.events.forEach((_, event) => {
            const { refused: number } = answered(() => round.arrive(event, this.sender));
            const button = one("#events").children[event];
            button.classList.toggle("no-right", number !== undefined);
            if (number === undefined) button.removeAttribute("title");
            else button.title = `${refusal(number)}: the sheet does not let ${player(this.sender)} send it`;
        });
        round.free();
    }

    targets() {
        const { value } = one("#target");
        return value === "both" ? this.phones : [this.phones[Number(value)]];
    }

    from() {
        return this.sender === 0 ? "" : ` from ${this.sender}`;
    }

    send(name) {
        this.does(this.targets(), [`send ${name}${this.from()}`]);
    }

    /** An urgent event in the middle of what runs. */
    breakIn() {
        const name = one("#tick-event").value;
        const steps = Math.min(9999, Math.max(0, Math.floor(Number(one("#tick-steps").value))));
        const busy = this.targets().filter((phone) => !phone.idle);
        if (name === "" || busy.length === 0) {
            this.say("Nothing is in hand: send an event first, which this one can break into");
            return;
        }
        const lines = [...(steps > 0 ? [`steps ${steps}`] : []), `send ${name}${this.from()}`];
        this.does(busy, lines, (phone) => phone.attempt(() => phone.goOn()));
    }

    /** Lines for the scripts of some phones, and what is done behind them. */
    does(phones, lines, then = () => {}) {
        this.story.stop();
        const before = phones.map((phone) => phone.entries.length);
        phones.forEach((phone) => lines.forEach((line) => phone.add(line)));
        phones.forEach(then);
        this.changed();
        this.say(phones.map((phone, k) => `Phone ${phone.name}: ${phone.news(before[k])}`).join(". "));
    }

    fresh() {
        this.story.stop();
        this.targets().forEach((phone) => phone.play([]));
        this.say("Started over");
    }

    preview(event) {
        this.hover = event;
        this.showPhones();
    }

    looked(number) {
        this.look = number;
        this.changed();
    }

    sends(number) {
        this.sender = number;
        if (this.sheet !== undefined) this.showRights();
    }

    // ---- what is shown

    say(told) {
        one("#said").textContent = told;
    }

    changed() {
        if (this.quiet) return;
        this.showPhones();
        this.draw();
        const box = one("#outcome");
        const { state, words: told } = outcomeOf(this.phones);
        box.dataset.state = state;
        if (box.textContent !== told) box.textContent = told;
    }

    showPhones() {
        const [a, b] = this.phones;
        a.show(b, this.hover);
        b.show(a, this.hover);
    }

    draw() {
        const phones = this.phones.map((phone) => (
            { name: `Phone ${phone.name}`, marks: phone.marks(), steps: phone.stage?.step ?? 0 }));
        const scroll = one("#scroll");
        const { paddingLeft, paddingRight } = getComputedStyle(scroll);
        draw(one("#timeline"), phones, scroll.clientWidth - parseFloat(paddingLeft) - parseFloat(paddingRight));
        scroll.scrollLeft = scroll.scrollWidth;
    }

    // ---- examples and files

    example(name) {
        if (name === STORY) return this.story.tell(name);
        this.leaveStory();
        return this.useSheet(name, this.library.text(name), this.library.scripts(name));
    }

    leaveStory() {
        this.story.stop();
        one("#story").hidden = true;
    }

    begin() {
        this.leaveStory();
        this.useSheet("mine.sheet", OWN, [[], []]);
        this.editor.focus();
    }

    store({ name, script }) {
        save(`${this.name.replace(/\.sheet$/, "")}-${name.toLowerCase()}.play`, `${script.join("\n")}\n`);
    }

    /** Files of the reader's: sheets as text or bytes, and scripts, which go to the phones that moves are sent to. */
    async opened(list) {
        const read = await Promise.all(list.map(async (file) => [file.name, new Uint8Array(await file.arrayBuffer())]));
        one("#files").value = "";
        const texts = read.map(([name, bytes]) => this.textOf(name, bytes)).filter((both) => both !== undefined);
        texts.forEach(([name, text]) => this.library.add(name, text));
        const scripts = texts.filter(([name]) => name.endsWith(".play")).map(([, text]) => text.trimEnd().split("\n"));
        const sheets = texts.filter(([name]) => !name.endsWith(".play"));
        this.leaveStory();
        const phones = scripts.length === 1 ? this.targets() : this.phones.slice(0, scripts.length);
        phones.forEach((phone, k) => (phone.script = scripts[k] ?? scripts[0]));
        const own = scripts.length > 0 ? this.phones.map((phone) => phone.script) : [[], []];
        if (sheets.length > 0) this.useSheet(...sheets.at(-1), own);
        else this.replay();
        if (texts.length > 0) this.say(`${listed(texts.map(([name]) => name))} opened`);
    }

    /** A file's name and text; a sheet's bytes are the text that means them. */
    textOf(name, bytes) {
        if (!isSheet(bytes)) return [name, new TextDecoder("utf-8", { ignoreBOM: true }).decode(bytes)];
        try {
            return [`${name.replace(/\.\w+$/, "")}.sheet`, this.engine.describe(bytes)];
        } catch (error) {
            if (error.name !== "Refusal") throw error;
            this.say(`${name} is no sheet: ${refusal(error.number)}`);
            return undefined;
        }
    }

    // ---- addresses

    state() {
        return {
            name: this.name,
            text: this.editor.text,
            given: Object.fromEntries(this.given),
            phones: this.phones.map(({ script, frame }) => ({ script: script.join("\n"), frame })),
            look: this.look,
            sender: this.sender,
        };
    }

    async linked() {
        this.written = await packed(this.state());
        location.hash = this.written;
        one("#linked").hidden = false;
        const field = one("#address");
        field.value = location.href;
        field.focus();
        field.select();
        const copied = navigator.clipboard?.writeText(location.href);
        await copied?.then(() => this.say("The address is copied"), () => this.say("The address stands in the field"));
    }

    /** Takes the state of the address, if it has one; whether it has. */
    async address() {
        const text = location.hash.slice(1);
        if (text === "" || text === this.written || document.getElementById(text) !== null) return false;
        try {
            const state = await unpacked(text);
            this.leaveStory();
            this.restore(state);
            return true;
        } catch (error) {
            this.say(`The address holds no state: ${error.message}`);
            return false;
        }
    }

    restore({ name, text, given, phones, look, sender }) {
        Object.assign(this, { look, sender });
        one("#look").value = look;
        one("#sender").value = sender;
        this.phones.forEach((phone, k) => phone.budget(phones[k].frame));
        const scripts = phones.map(({ script }) => (script === "" ? [] : script.split("\n")));
        this.useSheet(name, text, scripts, given);
    }
}

function wordsOf({ word, kind, why, hint }) {
    return `${word} (${kind}): ${why}${hint === undefined ? "" : `\n${hint}`}`;
}

/** Why a sheet has no table, as a fault of its text; none where it has one. */
function uncompiled(sheet) {
    try {
        sheet.compile();
        return [];
    } catch (failure) {
        if (failure.name !== "Failure") throw failure;
        const told = [failure.words ?? failure.message, ...(failure.ways ?? [])].join("\n");
        return [{ line: failure.line ?? 1, column: 1, words: told }];
    }
}
