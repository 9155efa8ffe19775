// A round played statement by statement on the proved engine and told in the words of `setter play`: the same lines for
// the same sheet and script. What is shown beside the lines, boards and pictures, is read from the same round.
import { BROKE_IN, COMMITTED, IDLE, STARTED } from "../js/engine.mjs";
import { Failure } from "./sheet.mjs";
import { folded, nearest, player, refusal, refused, several } from "./words.mjs";
import { wrong } from "./script.mjs";

const NO_RIGHT = 25;
const COLUMNS = 110; // of what play prints behind the number of steps
const MARGIN = 8;

/** A value, or the number of the refusal: { value } or { refused }. */
export function answered(call) {
    try {
        return { value: call() };
    } catch (error) {
        if (error.name !== "Refusal") throw error;
        return { refused: error.number };
    }
}

/** A line of what is told, as `setter play` prints it. */
export function printed({ step, words }) {
    return `${String(step).padStart(6)}  ${folded(words, COLUMNS, MARGIN + 2)}`;
}

/** What is played, at the head of what is printed. */
export function head(sheet) {
    return `${sheet.path}${sheet.withValues()}\n  step`;
}

/** Before anything is played: each name is one of the sheet's, or of one that the script has changed to by then. */
export function namesKnown(sheet, path, statements) {
    sheet.allGiven();
    sheet.compile();
    const sheets = [sheet];
    let last = sheet;
    for (const statement of statements) {
        if (statement.verb === "mend") {
            last = changed(last, statement);
            sheets.push(statement.sheet);
            continue;
        }
        const events = statement.events ?? (statement.verb === "preview" ? [statement.event] : []);
        const names = statement.names ?? statement.values?.map(([name]) => name) ?? [];
        const event = events.find((name) => sheets.every((own) => !own.events.includes(name)));
        const near = (word, known) => {
            const found = nearest(word, known);
            return found === undefined ? "" : `; is it ${found}?`;
        };
        if (event !== undefined) {
            const known = near(event, sheets.flatMap((own) => own.events));
            throw wrong(path, statement.line, `${sheet.path} has no event ${event}${known}`);
        }
        const name = names.find((word) => sheets.every((own) => own.shown(word) === undefined));
        if (name !== undefined) {
            const known = near(name, sheets.flatMap((own) => own.groups.map((group) => group.name)));
            throw wrong(path, statement.line, `${sheet.path} has no behaviour or cell ${name}${known}`);
        }
    }
}

// The sheet that a round goes on under, in its own order or in that of the one before.
function changed(old, { sheet, byName }) {
    return byName ? sheet.inOrderOf(old) : sheet;
}

/** A round that is being played. `tell` is given all that happens: { step, words, mark }. */
export class Stage {
    constructor(engine, sheet, path, tell) {
        Object.assign(this, { sheet, path, tell });
        this.table = sheet.compile();
        this.engine = engine;
        this.round = engine.open(this.table);
        this.step = 0;
        this.taken = 0;
        this.running = undefined; // { number, event }
        this.started = new Set(); // arrivals, to tell a start from a restart
        this.idle = true;
        this.failed = [];
    }

    free() {
        this.round.free();
    }

    say(words, mark) {
        this.tell({ step: this.step, words, mark });
    }

    play(statement) {
        const { line } = statement;
        switch (statement.verb) {
            case "send": return statement.events.forEach((event) => this.send(line, event, statement.player));
            case "steps": return this.steps(line, statement.count);
            case "run": return this.run(line);
            case "board": return this.board(line, statement);
            case "preview": return this.preview(line, statement);
            case "expect": return this.expect(line, statement);
            case "forecast": return this.forecast();
            default: return this.mend(statement);
        }
    }

    /** `hit #3`. */
    named({ event, number }) {
        return `${this.sheet.event(event)} #${number}`;
    }

    act({ event, number }) {
        return { number, event: this.sheet.event(event), rank: this.engine.eventRank(this.table, event) };
    }

    event(line, name) {
        const event = this.sheet.events.indexOf(name);
        if (event < 0) throw wrong(this.path, line, `${this.sheet.path} has no event ${name}`);
        return event;
    }

    shown(line, names) {
        if (names.length === 0) return this.sheet.everything();
        return names.map((name) => {
            const shown = this.sheet.shown(name);
            if (shown === undefined) {
                throw wrong(this.path, line, `${this.sheet.path} has no behaviour or cell ${name}`);
            }
            return shown;
        });
    }

    send(line, name, from) {
        const event = this.event(line, name);
        const { refused: number } = answered(() => this.round.arrive(event, from));
        if (number !== undefined) {
            const right = `${refusal(number)}: the sheet does not let ${player(from)} send it`;
            const why = number === NO_RIGHT ? right : refused(number);
            const mark = { kind: "refused", event: name, number, player: from };
            return this.say(`${name} from ${player(from)} is refused, ${why}`, mark);
        }
        const arrival = { number: this.taken, event };
        this.taken++;
        this.idle = false;
        const mark = { kind: "arrived", act: this.act(arrival), player: from };
        return this.say(`${name} from ${player(from)} arrives as #${arrival.number}`, mark);
    }

    // ---- steps

    /** One step; whether something was in hand. */
    make(line) {
        const before = this.running;
        const { value: did, refused: number } = answered(() => this.round.step());
        if (number !== undefined) throw wrong(this.path, line, refused(number));
        if (did.kind === IDLE) return false;
        this.step++;
        const arrival = { number: did.arrival, event: did.event };
        if (did.kind === STARTED) this.start(arrival);
        else if (did.kind === BROKE_IN) this.start(arrival, before);
        else if (did.kind === COMMITTED) {
            this.running = undefined;
            const ran = did.over ? "; a result was not the exact one, or a divisor was zero" : "";
            const mark = { kind: "committed", act: this.act(arrival), over: did.over };
            this.say(`${this.named(arrival)} commits${ran}`, mark);
        }
        return true;
    }

    start(arrival, broken) {
        this.running = arrival;
        const again = this.started.has(arrival.number);
        this.started.add(arrival.number);
        const name = this.named(arrival);
        const mark = { kind: broken === undefined ? "started" : "broke in", act: this.act(arrival), again };
        if (broken === undefined) this.say(`${name} ${again ? "starts again" : "starts"}`, mark);
        else this.say(`${name} breaks in: ${this.named(broken)} drops its work and goes back to the hand`, mark);
    }

    /** Idle, told once. */
    rest() {
        if (!this.idle) this.say("idle");
        this.idle = true;
    }

    steps(line, count) {
        for (let made = 0; made < count; made++) {
            if (this.make(line)) continue;
            // nothing can change any more: the steps that are left pass at once
            this.rest();
            this.step += count - made;
            return;
        }
    }

    run(line) {
        while (this.make(line));
        this.rest();
    }

    // ---- looking

    board(line, { names, player: who }) {
        const seen = values(this.shown(line, names), (b) => this.round.board(b, who));
        const whose = who === 0 ? "" : ` as ${player(who)} sees it`;
        if (seen.refused !== undefined) return this.say(`board${whose} is refused, ${refused(seen.refused)}`);
        return this.say(`board${whose}: ${seen.words}`);
    }

    preview(line, { event: name, names, player: who }) {
        const event = this.event(line, name);
        const seen = values(this.shown(line, names), (b) => this.round.preview(event, b, who));
        const what = `preview of ${name} from ${player(who)}`;
        if (seen.refused !== undefined) return this.say(`${what} is refused, ${refused(seen.refused)}`);
        return this.say(`${what}: ${seen.words}`);
    }

    /** What is not as expected is told, and the round goes on; the script has failed then. */
    expect(line, { values: expected, player: who }) {
        for (const [name, value] of expected) {
            const [{ members, row }] = this.shown(line, [name]);
            if (row) throw wrong(this.path, line, `expect names a cell of ${name}, as in ${name}[0]`);
            const { value: own, refused: number } = answered(() => this.round.board(members[0], who));
            const seen = number === undefined ? String(own) : number === NO_RIGHT ? "hidden" : refused(number);
            if (seen !== value) this.failed.push(`${this.path}:${line}: ${name} is ${seen}, expected ${value}`);
            this.say(`${name} is ${seen}, ${seen === value ? "as expected" : `expected ${value}`}`);
        }
    }

    forecast() {
        const bound = this.running === undefined ? "" : "at most ";
        const { value, refused: number } = answered(() => this.round.forecast());
        if (number !== undefined) return this.say(`forecast is refused, ${refused(number)}`);
        return this.say(`forecast: idle after ${bound}${several(value, "step", "steps")}`);
    }

    mend(statement) {
        const sheet = changed(this.sheet, statement);
        const table = sheet.compile();
        const { refused: number } = answered(() => this.round.mend(table));
        if (number !== undefined) return this.say(`the change to ${sheet.path} is refused, ${refused(number)}`);
        const back = this.running === undefined ? "" : `: ${this.named(this.running)} goes back to the hand`;
        this.running = undefined;
        const changes = sheet.changes(this.sheet);
        Object.assign(this, { sheet, table });
        this.say(`the sheet is now ${sheet.path}${sheet.withValues()}${back}`, { kind: "mended", path: sheet.path });
        return changes.forEach((change) => this.say(`warning: ${change}`));
    }
}

/** Plays a whole script; the lines that `setter play` prints, and the Failure that it ends with, if there is one. */
export function transcript(engine, sheet, path, statements) {
    const lines = [head(sheet)];
    let stage;
    try {
        namesKnown(sheet, path, statements);
        stage = new Stage(engine, sheet, path, (entry) => lines.push(printed(entry)));
        statements.forEach((statement) => stage.play(statement));
        if (stage.failed.length > 0) throw new Failure(stage.failed.join("\n"));
        return { lines };
    } catch (failure) {
        if (failure.name !== "Failure") throw failure;
        return { lines, failure };
    } finally {
        stage?.free();
    }
}

/**
 * Values under their names: `score 10, lamp [1 0 0]`. What is hidden is told so; where all are turned down alike, that
 * is the answer: { words } or { refused }.
 */
function values(shown, read) {
    let first;
    let seen = false;
    const told = shown.map(({ label, members, row }) => {
        const list = members.map((member) => answered(() => read(member)));
        seen ||= list.some(({ refused: number }) => number === undefined);
        first ??= list.find(({ refused: number }) => number !== undefined)?.refused;
        if (list.every(({ refused: number }) => number === NO_RIGHT)) return `${label} hidden`;
        const words = list.map(({ value, refused: number }) =>
            number === undefined ? String(value) : number === NO_RIGHT ? "hidden" : refusal(number));
        return row ? `${label} [${words.join(" ")}]` : `${label} ${words.join("")}`;
    });
    if (first !== undefined && !seen) return { refused: first };
    return { words: told.length === 0 ? "the sheet has no behaviours" : told.join(", ") };
}
