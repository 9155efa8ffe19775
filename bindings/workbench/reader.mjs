// A plain reader of a sheet's text, for the words of its first fault and for warnings. Kind and place of a fault are
// the engine's to state: these words are shown only where both find the same fault. It follows bindings/rust/text,
// which `setter` takes its words from; tests/workbench holds the two together.
import { LEVELS, declares, is, named, tokens } from "./tokens.mjs";
import { nearest } from "./words.mjs";

export const OUTSIDE = 31;
export const LARGE_NUMBER = 32;
export const OFF_THE_SCALE = 33;
export const CROWDED = 34;
export const DOUBLED = 35;
export const SECOND_HANDLER = 36;
export const TOO_DEEP = 37;
export const UNKNOWN_NAME = 38;
export const NO_CELL = 39;
export const LONG_SHEET = 40;
export const SHORT_BUFFER = 41;
export const LONG_TEXT = 42;

const MOST = 2147483647; // of a number
const TEXT = 65536; // bytes of a text
const NESTING = 16;
const MANY = { params: 8, events: 32, behaviours: 64 };

/** The first fault of a text: { kind, line, column, why }; undefined where there is none. */
export function firstFault(bytes) {
    if (bytes.length > TEXT) {
        const end = tokens(bytes.subarray(0, TEXT)).at(-1);
        return fault(LONG_TEXT, end, `${bytes.length} bytes, and a text has at most ${TEXT}`);
    }
    try {
        new Reader(tokens(bytes)).sheet();
        return undefined;
    } catch (found) {
        if (found instanceof Error) throw found;
        return found;
    }
}

/** What a text without a fault declares: { params, events, behaviours }, by name. */
export function declared(bytes) {
    const reader = new Reader(tokens(bytes));
    reader.sheet();
    return reader;
}

function fault(kind, { line, column }, why) {
    return { kind, line, column, why };
}

/** A question behind a message, where a name that is not known is near another. */
function perhaps(word, known) {
    const near = nearest(word, known);
    return near === undefined ? "" : `; is it \`${near}\`?`;
}

class Reader {
    constructor(list) {
        this.list = list;
        this.at = 0;
        this.params = new Map(); // name to its token
        this.events = new Map();
        this.behaviours = new Map(); // name to { token, cells, passive, nobody, handlers }
        this.count = 0; // of behaviours, a row's cells counted
        this.uses = []; // names in formulas: { token, cell, bracket, row }
    }

    // ---- tokens

    get token() {
        return this.list[this.at];
    }

    next() {
        this.at++;
    }

    fail(kind, why, token = this.token) {
        throw fault(kind, token, why);
    }

    outside(due) {
        this.fail(OUTSIDE, `${due}, not ${named(this.token)}`);
    }

    take(word) {
        const there = is(this.token, "word", word);
        if (there) this.next();
        return there;
    }

    mark(mark) {
        if (!is(this.token, "mark", mark)) this.outside(`\`${mark}\` is due`);
        this.next();
    }

    number(most = MOST) {
        const { kind, value } = this.token;
        if (kind !== "number") this.outside("a number is due");
        if (value > most) this.fail(LARGE_NUMBER, `a number here is at most ${most}`);
        this.next();
        return value;
    }

    onScale(low, high, what) {
        const token = this.token;
        const value = this.number();
        if (value < low || value > high) this.fail(OFF_THE_SCALE, `${what} is ${low} to ${high}`, token);
        return value;
    }

    value() {
        if (!is(this.token, "two", "-")) return this.number();
        this.next();
        return this.number(MOST + 1);
    }

    // ---- declarations

    sheet() {
        while (is(this.token, "word", "param")) this.param();
        while (is(this.token, "word", "event")) this.event();
        while (this.token.kind !== "end") this.behaviour();
        this.uses.forEach((use) => this.meant(use));
    }

    opened(has, many) {
        const what = many === "params" ? "parameters" : many;
        if (has === MANY[many]) this.fail(CROWDED, `a sheet has at most ${MANY[many]} ${what}`);
        this.next();
    }

    declared(known) {
        const { kind, value } = this.token;
        if (kind !== "name") this.outside("a name is due");
        if (known !== undefined) this.fail(DOUBLED, `\`${value}\` is declared in line ${known.line} already`);
        this.next();
        return value;
    }

    known() {
        const { value } = this.token;
        return this.params.get(value) ?? this.behaviours.get(value)?.token;
    }

    param() {
        this.opened(this.params.size, "params");
        const token = this.token;
        this.params.set(this.declared(this.known()), token);
        if (!is(this.token, "mark", "=")) return;
        this.next();
        this.value();
    }

    event() {
        this.opened(this.events.size, "events");
        const token = this.token;
        this.events.set(this.declared(this.events.get(token.value)), token);
        if (!this.take("rank")) this.outside("`rank` is due");
        this.onScale(0, 15, "a rank");
        if (this.take("from")) this.players();
    }

    /** Whether nobody is named. */
    players() {
        if (this.take("nobody")) return true;
        if (this.token.kind !== "number") this.outside("`nobody` or a player's number is due");
        while (this.token.kind === "number") this.onScale(0, 7, "a player");
        return false;
    }

    /** Whether it is seen by nobody. */
    unseen() {
        if (!this.take("seen")) return false;
        if (!this.take("by")) this.outside("`by` is due after `seen`");
        return this.players();
    }

    behaviour() {
        const kind = declares(this.token);
        if (!["passive", "active", "row"].includes(kind)) this.outside(this.due());
        this.opened(this.count, "behaviours");
        const token = this.token;
        const own = { token, cells: undefined, handlers: [] };
        this.behaviours.set(this.declared(this.known()), own);
        if (kind === "row") this.cells(own);
        this.mark("=");
        if (kind === "passive") own.passive = formula(this, undefined);
        else this.value();
        own.nobody = this.unseen();
        if (kind !== "passive") this.handlers(own);
        this.count += own.cells ?? 1;
    }

    due() {
        if (this.behaviours.size > 0) {
            return "`passive`, `active` or `row` is due, or what goes on the declaration before";
        }
        const words = "`passive`, `active` or `row` is due";
        return this.events.size > 0 ? `\`event\`, ${words}` : `\`param\`, \`event\`, ${words}`;
    }

    cells(own) {
        this.mark("[");
        const token = this.token;
        const count = this.onScale(2, 16, "a row's cell count");
        if (this.count + count > MANY.behaviours) {
            this.fail(CROWDED, `a sheet has at most ${MANY.behaviours} behaviours, a row's cells counted`, token);
        }
        own.cells = count;
        this.mark("]");
    }

    handlers({ cells: row, handlers }) {
        const handled = new Set();
        while (this.take("on")) {
            const { kind, value } = this.token;
            if (kind !== "name") this.outside("an event's name is due");
            if (!this.events.has(value)) {
                const near = perhaps(value, this.events.keys());
                this.fail(UNKNOWN_NAME, `no event \`${value}\` is declared${near}`);
            }
            if (handled.has(value)) this.fail(SECOND_HANDLER, `this behaviour has a handler for \`${value}\` already`);
            handled.add(value);
            const token = this.token;
            this.next();
            this.take("later");
            this.mark(":");
            handlers.push({ token, formula: formula(this, row) });
        }
    }

    // ---- names in formulas

    meant({ token, cell, bracket, row }) {
        const name = token.value;
        if (this.params.has(name)) {
            if (bracket !== undefined) this.fail(NO_CELL, `\`${name}\` is a parameter and has no cells`, bracket);
            return;
        }
        const behaviour = this.behaviours.get(name);
        if (behaviour === undefined) {
            const near = perhaps(name, [...this.params.keys(), ...this.behaviours.keys()]);
            this.fail(UNKNOWN_NAME, `no parameter and no behaviour \`${name}\` is declared${near}`, token);
        }
        if (bracket !== undefined) this.cell(name, behaviour.cells, { cell, bracket, row });
    }

    cell(name, cells, { cell, bracket, row }) {
        if (cells === undefined) this.fail(NO_CELL, `\`${name}\` is no row and has no cells`, bracket);
        if (cell >= cells) this.fail(NO_CELL, `the cells of \`${name}\` are 0 to ${cells - 1}`, bracket);
        if (cell === 0 && row === cells) {
            const same = `\`${name}\` means the cell at the same place`;
            this.fail(NO_CELL, `in a row of ${cells} cells ${same}, and cell 0 cannot be said`, bracket);
        }
    }
}

// ---- formulas: what waits for an operand on one stack, the operands on another, each with how deep it nests. An
// operand is { value }, { name, cell } or { function, operands }.

function formula(reader, row) {
    const stacks = { waiting: [], operands: [], functions: 0 };
    do operand(reader, stacks, row);
    while (goesOn(reader, stacks));
    return stacks.operands[0];
}

function wait(reader, stacks, function_, nesting) {
    if (stacks.functions + 1 + nesting > NESTING) {
        reader.fail(TOO_DEEP, `with this the expression nests over ${NESTING} deep`);
    }
    stacks.waiting.push(function_);
    stacks.functions++;
}

/** Up to a primary. */
function operand(reader, stacks, row) {
    for (;;) {
        const token = reader.token;
        if (token.kind === "not") wait(reader, stacks, { function: "!", arguments: 1, level: 0 }, 1);
        else if (is(token, "mark", "(")) stacks.waiting.push({ bracket: true });
        else if (is(token, "word", "if")) {
            wait(reader, stacks, { function: "if", choice: 0, arguments: 3 }, 1);
            reader.next();
            if (!is(reader.token, "mark", "(")) reader.outside("`(` is due after `if`");
        } else break;
        reader.next();
    }
    stacks.operands.push({ ...primary(reader, row), nesting: 1 });
}

function primary(reader, row) {
    const token = reader.token;
    if (token.kind === "number") return { value: reader.value() };
    if (is(token, "two", "-")) return { value: -reader.value() };
    if (token.kind !== "name") reader.outside("a number, a name, `(`, `!` or `if` is due");
    reader.next();
    const use = { token, row };
    if (is(reader.token, "mark", "[")) {
        use.bracket = reader.token;
        reader.next();
        use.cell = reader.number();
        reader.mark("]");
    }
    reader.uses.push(use);
    return { name: token.value, cell: use.cell };
}

/** What follows an operand: whether another one is due. */
function goesOn(reader, stacks) {
    for (;;) {
        const { kind, value } = reader.token;
        if (kind === "two") {
            const level = LEVELS.get(value);
            close(stacks, level);
            wait(reader, stacks, { function: value, arguments: 2, level }, stacks.operands.at(-1).nesting);
            reader.next();
            return true;
        }
        close(stacks, Infinity);
        const last = stacks.waiting.at(-1);
        if (kind === "mark" && value === "," && last?.choice < 2) {
            last.choice++;
            reader.next();
            return true;
        }
        if (kind !== "mark" || value !== ")" || !(last?.bracket || last?.choice === 2)) return over(reader, last);
        if (last.bracket) stacks.waiting.pop();
        else apply(stacks);
        reader.next();
    }
}

/** The formula is over, unless a bracket is open. */
function over(reader, last) {
    if (last?.choice < 2) reader.outside("an operator or `,` is due");
    if (last !== undefined) reader.outside("an operator or `)` is due");
    return false;
}

/** Applies what waits and binds at least as tightly as a level. */
function close(stacks, level) {
    while (stacks.waiting.at(-1)?.level <= level) apply(stacks);
}

function apply(stacks) {
    const { function: name, arguments: count } = stacks.waiting.pop();
    const operands = stacks.operands.splice(-count);
    stacks.functions--;
    const deepest = Math.max(...operands.map(({ nesting }) => nesting));
    stacks.operands.push({ function: name, operands, nesting: 1 + deepest });
}

