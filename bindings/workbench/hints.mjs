// What to do about a fault. The tokens before it tell where it stands; kind and place are given, and nothing is judged.
// It follows bindings/rust/text, which has the same hints for `setter`, from the same words.
import { NO_CELL, OUTSIDE, TOO_DEEP, UNKNOWN_NAME } from "./reader.mjs";
import { RESERVED, begins, declares, is, tokens } from "./tokens.mjs";
import { nearest, words } from "./words.mjs";

const NONE = { kind: "end", value: "" };
const LINE_WORDS = RESERVED.filter((word) => begins({ kind: "word", value: word }));

/** The hint for a fault of this kind at this place of a text's bytes; undefined where there is none. */
export function hint(bytes, { kind, line, column }) {
    if (kind === OUTSIDE && encoding(bytes) !== undefined) return encoding(bytes);
    const list = tokens(bytes);
    const at = list.findIndex((token) => token.line === line && token.column === column);
    if (at < 0) return undefined;
    if (kind === UNKNOWN_NAME) return unknown(list, at);
    if (kind === TOO_DEEP) return words("formula.deep");
    if (kind === NO_CELL) return cellZero(list, at);
    if (kind !== OUTSIDE) return undefined;
    const { kind: sort, value } = list[at];
    if (sort === "bad" && value[0] >= 0x80) return letter(bytes.subarray(list[at].from));
    if (sort === "bad" && value.length === 1 && (value[0] < 32 || value[0] === 127)) return words("file.binary");
    return new Context(list, at).outside();
}

/** A text in another encoding, or no text. */
export function encoding(bytes) {
    const starts = (...first) => first.every((byte, k) => bytes[k] === byte);
    const printed = (byte) => byte >= 9 && byte <= 126;
    const wide = (printed(bytes[0]) && bytes[1] === 0) || (bytes[0] === 0 && printed(bytes[1]));
    if (starts(0xef, 0xbb, 0xbf)) return words("file.bom");
    if (starts(0xff, 0xfe) || starts(0xfe, 0xff) || wide) return words("file.utf16");
    return starts(0x50, 0x4b, 3, 4) || starts(0x89, 0x50, 0x4e, 0x47) ? words("file.binary") : undefined;
}

// A byte outside ASCII, as the letter that it begins.
function letter(rest) {
    const length = rest[0] < 0xe0 ? 2 : rest[0] < 0xf0 ? 3 : 4;
    let sign;
    try {
        sign = new TextDecoder("utf-8", { fatal: true, ignoreBOM: true }).decode(rest.subarray(0, length));
    } catch {
        return words("char.none");
    }
    const number = sign.codePointAt(0).toString(16).toUpperCase().padStart(4, "0");
    const other = /\p{Alphabetic}/u.test(sign) ? "char.letter" : "char.other";
    return words(`char.${number}`, sign) ?? words(other, sign, `U+${number}`);
}

// A name in a formula, or behind `on`, that is not declared so.
function unknown(list, at) {
    const { kind, value } = list[at];
    if (kind !== "name") return undefined;
    const declared = (event) =>
        list.some((token, k) => {
            const word = k > 0 && is(token, "name", value) ? declares(list[k - 1]) : undefined;
            return word !== undefined && (word === "event") === event;
        });
    const handled = at > 0 && is(list[at - 1], "word", "on");
    if (handled && declared(false)) return words("name.behaviour", value);
    if (!handled && declared(true)) return words("name.event", value);
    return ["true", "false", "True", "False"].includes(value) ? words("name.true") : undefined;
}

// Cell 0 of a row, which cannot be said in another row of its length.
function cellZero(list, bracket) {
    const name = list[bracket - 1];
    const row = list.some((token, k) => k > 0 && is(list[k - 1], "word", "row") && is(token, "name", name.value));
    return row && is(list[bracket + 1], "number", 0) ? words("cell.zero") : undefined;
}

const endsOperand = ({ kind, value }) =>
    kind === "name" || kind === "number" || (kind === "mark" && (value === ")" || value === "]"));

const bad = ({ kind, value }) => (kind === "bad" && value.length === 1 ? String.fromCharCode(value[0]) : undefined);

/** Where in a text a token stands. */
class Context {
    constructor(list, at) {
        this.list = list;
        this.at = at;
        this.declaration = undefined; // its first word
        this.handler = false;
        this.formula = false;
        this.open = []; // brackets: { token, commas }, the commas of an `if`
        for (let k = 0; k < at; k++) this.pass(k);
    }

    pass(k) {
        const token = this.list[k];
        const word = declares(token);
        if (word !== undefined) Object.assign(this, { declaration: word, handler: false, formula: false, open: [] });
        if (is(token, "word", "on")) Object.assign(this, { handler: true, formula: false, open: [] });
        else if (is(token, "word", "seen")) this.formula = false;
        else if (is(token, "mark", ":")) this.formula ||= this.handler;
        else if (is(token, "mark", "=")) this.formula ||= this.declaration === "passive";
        else if (is(token, "mark", "(") && this.formula) {
            this.open.push({ token, commas: is(this.before(k), "word", "if") ? 0 : undefined });
        } else if (is(token, "mark", ")")) this.open.pop();
        else if (is(token, "mark", ",") && this.open.at(-1)?.commas !== undefined) this.open.at(-1).commas++;
    }

    before(k) {
        return k > 0 ? this.list[k - 1] : NONE;
    }

    get token() {
        return this.list[this.at];
    }

    // whether the token follows the one before it without a space
    close() {
        return this.at > 0 && this.list[this.at - 1].to === this.token.from;
    }

    thenOrder() {
        const next = this.list[this.at + 1];
        return (is(next, "two", ">") || is(next, "two", "<")) && next.from === this.token.to;
    }

    name() {
        for (let k = this.at - 1; k >= 0; k--) {
            if (declares(this.list[k]) === undefined) continue;
            return this.list[k + 1].kind === "name" ? this.list[k + 1].value : "NAME";
        }
        return "NAME";
    }

    /** Of a token that cannot follow. */
    outside() {
        const before = this.before(this.at);
        const { kind } = this.token;
        if (is(before, "mark", "[") && (kind === "name" || is(this.token, "two", "-"))) return words("cell.number");
        if (!this.formula) return this.declared();
        return endsOperand(before) ? this.operator() : this.operand();
    }

    // behind an operand
    operator() {
        const { kind, value } = this.token;
        if (kind === "name") return this.operatorWord(value);
        if (bad(this.token) !== undefined) return this.sign(bad(this.token));
        if (kind === "end" || (kind === "word" && value !== "if")) return this.ended();
        if (kind === "mark") return this.operatorMark(value);
        return ["number", "not", "word"].includes(kind) ? words("operator.missing") : undefined;
    }

    operatorMark(value) {
        const three = this.open.at(-1)?.commas !== undefined;
        if (value === "=") return words(this.thenOrder() ? "operator.order" : "operator.equals");
        if (value === "(") return this.called();
        if (value === ")" && this.open.length === 0) return words("bracket.none");
        if ((value === ")" || value === ",") && three) return words("if.three");
        if (value === ",") return words("mark.comma");
        return value === "[" ? words("bracket.cell") : undefined;
    }

    operatorWord(name) {
        const keys = { and: "operator.and", or: "operator.or", not: "operator.not", xor: "operator.xor",
            mod: "operator.remainder", rem: "operator.remainder", then: "if.three", else: "if.three" };
        const lower = name.toLowerCase();
        if (Object.hasOwn(keys, lower)) return words(keys[lower]);
        if (is(this.before(this.at), "name", "not")) return words("operator.not");
        return this.keyword(name) ?? words("operator.missing");
    }

    // a word that may be meant for a declaration's, at the beginning of a line
    keyword(name) {
        const first = this.at === 0 || this.list[this.at - 1].line < this.token.line;
        const near = nearest(name, LINE_WORDS);
        return first && near !== undefined ? words("declaration.near", near) : undefined;
    }

    called() {
        const { kind, value } = this.before(this.at);
        if (kind !== "name") return words("operator.missing");
        return ["max", "min", "abs"].includes(value) ? words(`function.${value}`) : words("function.none", value);
    }

    // a sign that is none of the grammar's
    sign(sign) {
        const keys = { "%": "operator.remainder", "&": "operator.and", "|": "operator.or", "^": "operator.power",
            "?": "operator.choice", ";": "mark.end", "'": "text.none", '"': "text.none", "/": "comment.hash" };
        if (sign === "." && this.before(this.at).kind === "number") return words("number.whole");
        return words(Object.hasOwn(keys, sign) ? keys[sign] : "operator.none");
    }

    // a formula's end that comes too early, or what stands behind it at the wrong place
    ended() {
        const open = this.open.at(-1);
        if (open === undefined) return this.declared();
        return words("bracket.open", String(open.token.line), String(open.token.column));
    }

    // where an operand is due
    operand() {
        const [before, token] = [this.before(this.at), this.token];
        const { kind, value } = token;
        const signed = is(before, "two", "-") && !endsOperand(this.before(this.at - 1));
        if (signed && kind === "name") return words("operator.minus", value);
        if (signed && is(token, "mark", "(")) return words("operator.minus", "(..)");
        if (before.kind === "two" && kind === "two" && this.close()) return doubled(before.value, value);
        if (before.kind === "two" && is(token, "mark", "=") && this.close()) return words("operator.step");
        if (bad(token) === ".") return words("number.whole");
        if (bad(token) !== undefined) return this.sign(bad(token));
        if (kind !== "word" && kind !== "end") return undefined;
        if (this.open.length > 0) return this.ended();
        if (kind === "word" && !begins(token)) return words("word.reserved", value);
        return words("formula.missing");
    }

    // outside formulas
    declared() {
        const [before, token] = [this.before(this.at), this.token];
        if (declares(before) !== undefined) return unnamed(token);
        if (is(token, "word", "param")) return words("order.param");
        if (is(token, "word", "event")) return words("order.event");
        if (is(token, "word", "on")) {
            return words(this.declaration === "passive" ? "handler.passive" : "handler.where");
        }
        if (is(token, "word", "seen") && this.handler) return words("seen.first");
        if (bad(token) === ";") return words("mark.end");
        if (bad(token) === "/" || is(token, "two", "/")) return words("comment.hash");
        return this.within(before, token);
    }

    // within a declaration, or where one is due
    within(before, token) {
        const named_ = this.at >= 2 && declares(this.before(this.at - 1)) !== undefined;
        if (is(before, "word", "rank")) return words("event.rank");
        if (is(before, "word", "from") || is(before, "word", "by")) return words("players.numbers");
        if (before.kind === "number" && is(token, "mark", ",")) return words("players.comma");
        if (before.kind === "number" && bad(token) === ".") return words("number.whole");
        if (is(before, "mark", "=") && token.kind === "name") return words("start.number", token.value);
        if (named_ && this.declaration === "event") return words("event.rank");
        if (named_ && this.declaration === "row") return words("row.count", this.name());
        if (named_ && is(token, "mark", "[")) return words("row.active", this.name());
        if (this.handler && !this.formula) return words("handler.colon");
        return token.kind === "name" ? this.keyword(token.value) : undefined;
    }
}

// behind the first word of a declaration
function unnamed(token) {
    if (token.kind === "word") return words("word.reserved", token.value);
    if (token.kind === "number") return words("name.letter");
    return token.kind === "bad" && token.value.length > 1 ? words("name.long") : undefined;
}

// two operators in one
function doubled(first, second) {
    const keys = { "++": "operator.step", "--": "operator.step", "**": "operator.power", "//": "comment.hash",
        "<>": "operator.unequal" };
    const both = first + second;
    return Object.hasOwn(keys, both) ? words(keys[both]) : undefined;
}
