// The faults of a text as the engine finds them, each in words and with its hint: what is at fault is put aside, and
// the rest is read on. It follows bindings/rust/text, which does the same for `setter check`.
import {
    CROWDED, DOUBLED, LONG_SHEET, LONG_TEXT, OUTSIDE, SHORT_BUFFER, UNKNOWN_NAME, firstFault,
} from "./reader.mjs";
import { RESERVED, begins, declares, is, tokens } from "./tokens.mjs";
import { hint } from "./hints.mjs";
import { nearest, when } from "./words.mjs";

const MOST = 8; // so many are told of one text
const LINE_FEED = 10;
const LINE_WORDS = RESERVED.filter((word) => begins({ kind: "word", value: word }));

/** The engine's fault in words: the plain reader's where it finds the same one, else what its number states. */
function inWords(engine, bytes) {
    const found = engineFault(engine, bytes);
    if (found === undefined) return undefined;
    const own = firstFault(bytes);
    const same = own?.kind === found.kind && own.line === found.line && own.column === found.column;
    return { ...found, why: same ? own.why : when(found.kind) };
}

function engineFault(engine, bytes) {
    try {
        engine.assemble(bytes);
        return undefined;
    } catch (error) {
        if (error.name !== "Fault") throw error;
        return { kind: error.number, word: error.word, line: error.line, column: error.column };
    }
}

/** The faults of a text's bytes, by place: { kind, word, line, column, why, hint }. */
export function faults(engine, bytes) {
    const rest = new Rest(bytes);
    const found = [];
    for (;;) {
        const fault = inWords(engine, Uint8Array.from(rest.bytes));
        if (fault === undefined) break;
        const inner = { ...fault };
        fault.hint = hint(Uint8Array.from(rest.bytes), inner);
        if (found.length > 0) Object.assign(fault, rest.origin(bytes, inner));
        const again = found.some(({ line, column }) => line === fault.line && column === fault.column);
        const mended = !again && rest.without(fault, inner);
        if (!again) found.push(fault);
        if (!mended || found.length === MOST) break;
    }
    return found.sort((a, b) => a.line - b.line || a.column - b.column);
}

/** A text that is changed, with the place in the first one of each of its bytes. */
class Rest {
    constructor(bytes) {
        this.bytes = [...bytes];
        this.from = Array.from({ length: bytes.length + 1 }, (_, k) => k);
    }

    origin(bytes, { line, column }) {
        let lineFrom = 0;
        for (let n = 1; n < line; n++) lineFrom = this.bytes.indexOf(LINE_FEED, lineFrom) + 1;
        const before = bytes.subarray(0, this.from[Math.min(lineFrom + column - 1, this.bytes.length)]);
        const feeds = before.reduce((count, byte) => count + (byte === LINE_FEED ? 1 : 0), 0);
        return { line: feeds + 1, column: before.length - before.lastIndexOf(LINE_FEED) };
    }

    /** Spaces instead of some bytes; lines stay. */
    blank(from, to) {
        for (let k = from; k < to; k++) if (this.bytes[k] !== LINE_FEED) this.bytes[k] = 32;
    }

    put(at, text) {
        const added = new TextEncoder().encode(text);
        const origin = this.from[at];
        this.bytes.splice(at, 0, ...added);
        this.from.splice(at, 0, ...Array.from(added, () => origin));
    }

    /** Puts aside what is at fault; whether that could be done. */
    without({ kind, why }, { line, column }) {
        if ([LONG_TEXT, LONG_SHEET, SHORT_BUFFER, CROWDED].includes(kind)) return false;
        const list = tokens(Uint8Array.from(this.bytes));
        const at = list.findIndex((token) => token.line === line && token.column === column);
        if (at < 0) return false;
        const token = list[at];
        if (kind === UNKNOWN_NAME && token.kind === "name" && !is(list[at - 1], "word", "on")) {
            this.withoutName(list, token.value);
            return true;
        }
        if (kind === OUTSIDE && dueIsADeclaration(why) && meantForNext(list, at)) return this.atTop(list, at);
        return this.withoutPart(list, at, kind);
    }

    /** A name that is not known: 0 in its place, in all formulas. */
    withoutName(list, name) {
        for (let k = list.length - 1; k > 0; k--) {
            if (!is(list[k], "name", name) || begins(list[k - 1])) continue;
            const cell = is(list[k + 1], "mark", "[");
            const last = cell ? Math.min(k + 3, list.length - 1) : k;
            this.blank(list[k].from, list[last].to);
            this.put(list[k].from, " 0 ");
        }
    }

    /**
     * Where a declaration is due: one at the wrong place goes to its own, a word that is near a reserved one becomes
     * that, anything else goes up to the next declaration, unless it may declare something.
     */
    atTop(list, at) {
        const token = list[at];
        const found = list.findIndex((other, k) => k > at && begins(other));
        const next = found < 0 ? list.length - 1 : found;
        if (is(token, "word", "param") || is(token, "word", "event")) return this.movedUp(list, at, next);
        if (token.kind !== "name") {
            this.blank(token.from, list[next].from);
            return true;
        }
        const near = nearest(token.value, LINE_WORDS);
        this.blank(token.from, near === undefined ? list[next].from : token.to);
        if (near !== undefined) this.put(token.from, near);
        return near !== undefined || list[at + 1].kind !== "name";
    }

    /** A parameter or an event before what must stand behind it. */
    movedUp(list, at, next) {
        const word = list[at].value;
        const behind = (other) => other !== "param" && (word === "param" || other !== "event");
        const first = list.find((token) => declares(token) !== undefined && behind(token.value));
        if (first === undefined || first.from >= list[at].from) return false;
        const text = (token) => new TextDecoder().decode(Uint8Array.from(this.bytes.slice(token.from, token.to)));
        const moved = `${list.slice(at, next).map(text).join(" ")} `;
        this.blank(list[at].from, list[next].from);
        this.put(first.from, moved);
        return true;
    }

    /** The declaration or handler at fault; what it declares stays declared. */
    withoutPart(list, at, kind) {
        let first = at - 1;
        while (first >= 0 && !begins(list[first])) first--;
        if (first < 0) return false;
        const next = (of) => (list.slice(first + 1).find(of) ?? list.at(-1)).from;
        const end = next(begins);
        const kept = keptOf(list, first, kind);
        if (kept === undefined) return false;
        if (kept.last === first) {
            const whole = next((token) => declares(token) !== undefined);
            this.blank(list[first].from, is(list[first], "word", "on") ? end : whole);
            return true;
        }
        this.blank(list[kept.last].to, end);
        this.put(list[kept.last].to, kept.text);
        return true;
    }
}

/** What stays of a declaration: its last token, and what is put behind that; undefined where nothing can be done. */
function keptOf(list, first, kind) {
    const { value } = list[first];
    const named = list[first + 1].kind === "name" && kind !== DOUBLED;
    if (value === "on" || !named) return { last: first, text: "" };
    if (value === "row") return counted(list.slice(first + 2)) ? { last: first + 4, text: " = 0 " } : undefined;
    const text = { param: "", event: " rank 0 " }[value] ?? " = 0 ";
    return { last: first + 1, text };
}

/** Whether `[COUNT]` stands here. */
function counted([open, count, close]) {
    return is(open, "mark", "[") && count.kind === "number" && count.value >= 2 && count.value <= 16 &&
        is(close, "mark", "]");
}

/** Whether a token that ends a declaration is meant for the next one's: it begins one, or a line. */
function meantForNext(list, at) {
    const first = at === 0 || list[at - 1].line < list[at].line;
    return begins(list[at]) || (first && ["name", "bad"].includes(list[at].kind));
}

/** Whether the reader's words are those of a declaration that is due. */
function dueIsADeclaration(why) {
    return ["`param`, `event`", "`event`, `passive`", "`passive`, `active`"].some((due) => why.startsWith(due));
}
