// One of the two phones: its script, the round that the script plays, and what is shown of both. Every press of a
// button is a line of the script, so that what is shown is always what `setter play` gives for that script.
import { element, one } from "./dom.mjs";
import { Failure } from "./sheet.mjs";
import { Stage, answered, namesKnown, printed } from "./stage.mjs";
import { readScript } from "./script.mjs";
import { refused } from "./words.mjs";

const NO_RIGHT = 25;
const SETTLING = 19;
const STATEMENTS = 20_000; // so many of a script are played
const LINES = 4000; // so many lines are told
const SHOWN = 300; // so many of them are shown

export class Phone {
    /** `bench` is where it stands: { engine, sheet, file, given, look, say, changed }. */
    constructor(bench, name, frame) {
        Object.assign(this, { bench, name, frame, script: [] });
        this.root = one("#phone").content.firstElementChild.cloneNode(true);
        this.stage = undefined;
        this.entries = [];
        this.label();
        const on = (selector, kind, act) => one(selector, this.root).addEventListener(kind, act);
        on(".step", "click", () => this.does("step"));
        on(".frame", "click", () => this.does(`steps ${this.frame}`));
        on(".run", "click", () => this.does("run"));
        on(".back", "click", () => this.play(this.script.slice(0, -1)));
        on(".budget", "change", (event) => this.budget(event.target.value));
        on(".script", "change", (event) => this.play(event.target.value.replace(/\n+$/, "").split("\n")));
        on(".store", "click", () => bench.store(this));
    }

    label() {
        one("h3", this.root).textContent = `Phone ${this.name}`;
        this.root.setAttribute("aria-label", `Phone ${this.name}`);
        one(".steps", this.root).setAttribute("aria-label", `Steps of phone ${this.name}`);
        one(".told", this.root).setAttribute("aria-label", `What happened on phone ${this.name}`);
        one(".script", this.root).setAttribute("aria-label", `Script of phone ${this.name}`);
        one("caption", this.root).textContent = `Board of phone ${this.name}`;
        one(".budget", this.root).setAttribute("aria-label", `Steps a frame of phone ${this.name}`);
        one(".budget", this.root).value = this.frame;
    }

    budget(given) {
        const number = Math.floor(Number(given));
        if (number >= 1 && number <= 9999) this.frame = number;
        one(".budget", this.root).value = this.frame;
    }

    // ---- the round

    place() {
        return { ...this.bench, path: this.path, most: STATEMENTS };
    }

    get path() {
        return `phone ${this.name}`;
    }

    /** A fresh round of the sheet in force. */
    fresh() {
        this.stage?.free();
        this.stage = undefined;
        this.entries = [];
        this.going = 0;
        this.failure = undefined;
        if (this.bench.sheet === undefined) return;
        this.stage = new Stage(this.bench.engine, this.bench.sheet, this.path, (entry) => this.told(entry));
    }

    told(entry) {
        if (this.entries.length >= LINES) throw new Failure(`${this.path}: the page tells ${LINES} lines and no more`);
        this.entries.push(entry);
    }

    /** What goes wrong is told, and ends the script there. */
    attempt(act) {
        try {
            act();
        } catch (failure) {
            if (failure.name !== "Failure") throw failure;
            this.failure = failure.message.replace(/ with --param \S+$/, " in its field under the sheet");
        }
    }

    /** Plays a whole script, given by its lines. */
    play(lines) {
        this.script = lines.length === 1 && lines[0] === "" ? [] : [...lines];
        this.attempt(() => {
            this.fresh();
            if (this.stage === undefined) return;
            const statements = readScript(new TextEncoder().encode(this.script.join("\n")), this.place());
            namesKnown(this.bench.sheet, this.path, statements);
            statements.forEach((statement) => this.stage.play(statement));
            if (this.stage.failed.length > 0) throw new Failure(this.stage.failed.join("\n"));
        });
        this.bench.changed();
    }

    /** One more line of the script, which is played at once. */
    add(line) {
        this.note(line);
        if (this.stage === undefined) return;
        this.attempt(() => {
            const blank = "\n".repeat(this.script.length - 1);
            const statements = readScript(new TextEncoder().encode(blank + line), this.place());
            statements.forEach((statement) => this.stage.play(statement));
        });
    }

    note(line) {
        this.script.push(line);
    }

    does(line) {
        const before = this.entries.length;
        this.bench.acted();
        this.add(line);
        this.bench.changed();
        this.bench.say(`Phone ${this.name}: ${this.news(before) || `${this.stage?.step ?? 0} steps made`}`);
    }

    /** What was told since there were so many lines. */
    news(before) {
        return this.entries.slice(before).map(({ words }) => words).join("; ");
    }

    /** Steps until something is told: where an event may break in is the engine's to decide. */
    goOn() {
        const before = this.entries.length;
        let steps = 0;
        while (this.entries.length === before && this.stage.make(this.script.length + 1)) steps++;
        if (steps > 0) this.note(`steps ${steps}`);
    }

    /** At most so many steps of a `run` that is shown as it goes: whether it is over. The script then has the `run`. */
    advance(count) {
        for (let k = 0; k < count; k++) {
            if (!this.stage.make(this.script.length + 1)) {
                this.stage.rest();
                this.going = 0;
                this.note("run");
                return true;
            }
            this.going++;
        }
        return false;
    }

    /** Ends such a run where it is: the script has the steps that were made. */
    halt() {
        if (this.going > 0) this.note(`steps ${this.going}`);
        this.going = 0;
    }

    // ---- what it shows

    /** The values of all behaviours as a player sees them: { value } or { refused }. */
    values(player) {
        const { stage } = this;
        if (stage === undefined) return [];
        return every(stage, (b) => stage.round.board(b, player));
    }

    /** The same, as they would be after this event. */
    previewed(event, player) {
        const { stage } = this;
        const number = stage?.sheet.events.indexOf(event) ?? -1;
        if (number < 0) return [];
        return every(stage, (b) => stage.round.preview(number, b, player));
    }

    get idle() {
        return this.stage !== undefined && this.stage.round.taken().inHand === 0;
    }

    /** The moves that were taken in, by event and sender. */
    moves() {
        const arrived = this.entries.filter(({ mark }) => mark?.kind === "arrived");
        return arrived.map(({ mark }) => `${mark.act.event} ${mark.player}`);
    }

    marks() {
        return this.entries.filter(({ mark }) => mark !== undefined);
    }

    /** Shows all of it, beside the other phone's values; `event` is the one whose preview is shown, if one is. */
    show(other, event) {
        const { look } = this.bench;
        const values = this.values(look);
        const ahead = event === undefined ? [] : this.previewed(event, look);
        this.showBoard({ values, other: other.values(look), ahead });
        this.showState(values);
        this.showTold();
        const text = one(".script", this.root);
        if (document.activeElement !== text) text.value = this.script.join("\n");
        const failure = one(".failure", this.root);
        failure.hidden = this.failure === undefined;
        failure.textContent = this.failure ?? "";
    }

    showBoard({ values, other, ahead }) {
        const rows = (this.stage?.sheet.everything() ?? []).map(({ label, members, row }) => {
            const cells = members.map((b) => cellOf(values[b], other[b]));
            const after = members.map((b) => ahead[b]).filter((cell) => cell !== undefined);
            const next = after.length > 0 ? `→ ${after.map(wordOf).join(" ")}` : "";
            const changes = after.some((cell, k) => wordOf(cell) !== wordOf(values[members[k]]));
            return element("tr", {},
                element("th", { scope: "row" }, label),
                element("td", { class: row ? "value cells" : "value" }, ...cells),
                element("td", { class: changes ? "ahead changes" : "ahead" }, next));
        });
        one("tbody", this.root).replaceChildren(...rows);
    }

    showState(values) {
        const state = one(".state", this.root);
        const { stage } = this;
        const inHand = stage?.round.taken().inHand ?? 0;
        const settling = values.some(({ refused: number }) => number === SETTLING);
        const running = stage?.running && `${stage.named(stage.running)} ${settling ? "settles" : "runs"}`;
        const waiting = inHand - (running ? 1 : 0);
        const words = [running, waiting > 0 ? `${waiting} waiting` : undefined].filter((part) => part !== undefined);
        state.textContent = stage === undefined ? "no round" : inHand === 0 ? "idle" : words.join(", ");
        state.classList.toggle("busy", inHand > 0);
        if (settling) state.title = refused(SETTLING);
        else state.removeAttribute("title");
    }

    showTold() {
        const list = one(".told", this.root);
        const from = Math.max(0, this.entries.length - SHOWN);
        const lines = this.entries.slice(from).map((entry) => element("div", { class: kindOf(entry) }, printed(entry)));
        list.replaceChildren(...lines);
        list.scrollTop = list.scrollHeight;
    }
}

const every = (stage, read) => Array.from({ length: stage.sheet.count }, (_, b) => answered(() => read(b)));

const kindOf = ({ mark, words }) => mark?.kind.replace(" ", "-") ?? (words.startsWith("board") ? "board" : "plain");

function wordOf({ value, refused: number }) {
    if (number === undefined) return String(value);
    return number === NO_RIGHT ? "hidden" : number === SETTLING ? "…" : `refused ${number}`;
}

// A value, marked where the other phone shows another one.
function cellOf(own, other) {
    const word = wordOf(own);
    const differs = other !== undefined && wordOf(other) !== word;
    if (!differs) return element("span", {}, word);
    return element("mark", {}, word, element("span", { class: "hidden" }, " differs"));
}
