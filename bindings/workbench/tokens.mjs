// The tokens of a sheet's text, each as long as it can be: { kind, value, line, column, from, to }. Lines and columns
// are counted from 1, columns in bytes, as the engine counts them.

export const RESERVED = [
    "param", "event", "rank", "from", "passive", "active", "row", "seen", "by", "nobody", "on", "later", "if",
];
const DECLARES = ["param", "event", "passive", "active", "row"];
const NAME = 32; // bytes of a name, at most

/** The two-sided operators: how tightly each binds, 1 the tightest. */
export const LEVELS = new Map([
    ["||", 6], ["&&", 5], [">=", 3], ["<=", 3], ["==", 4], ["!=", 4], ["+", 2], ["-", 2], ["*", 1], ["/", 1], [">", 3],
    ["<", 3],
]);

/** Numbers above this are told apart no more. */
export const LARGEST = 2 ** 32;

const code = (text) => text.charCodeAt(0);
const between = (low, byte, high) => byte >= code(low) && byte <= code(high);
const isDigit = (byte) => between("0", byte, "9");
const isWord = (byte) => isDigit(byte) || between("a", byte, "z") || between("A", byte, "Z") || byte === code("_");

/** The first word of the declaration that a token begins, if it begins one. */
export function declares(token) {
    return token.kind === "word" && DECLARES.includes(token.value) ? token.value : undefined;
}

export const is = (token, kind, value) => token.kind === kind && token.value === value;

/** Whether a token begins a declaration or a handler. */
export const begins = (token) => declares(token) !== undefined || is(token, "word", "on");

/** A token as a message names it. */
export function named({ kind, value }) {
    if (kind === "end") return "the end of the text";
    if (kind === "number" && value === LARGEST) return "a large number";
    if (kind !== "bad") return `\`${value}\``;
    if (value.length > 1) return `a name of over ${NAME} bytes`;
    return value[0] > 32 && value[0] < 127 ? `\`${String.fromCharCode(value[0])}\`` : `a byte ${value[0]}`;
}

function number(text) {
    return { kind: "number", value: Math.min(LARGEST, Number(text)) };
}

function word(text, bytes) {
    if (text.length > NAME) return { kind: "bad", value: bytes };
    return { kind: RESERVED.includes(text) ? "word" : "name", value: text };
}

function symbol(two, bytes) {
    const operator = [two, two[0]].find((text) => LEVELS.has(text));
    if (operator !== undefined) return { kind: "two", value: operator };
    if (two[0] === "!") return { kind: "not", value: "!" };
    return "(),:=[]".includes(two[0]) ? { kind: "mark", value: two[0] } : { kind: "bad", value: bytes };
}

/** The token that begins at a byte, and how many bytes it has. */
function tokenAt(bytes, at) {
    const latin = (to) => String.fromCharCode(...bytes.subarray(at, to));
    let to = at;
    if (isDigit(bytes[at])) {
        while (to < bytes.length && isDigit(bytes[to])) to++;
        return { ...number(latin(to)), to };
    }
    while (to < bytes.length && isWord(bytes[to])) to++;
    if (to > at) return { ...word(latin(to), bytes.subarray(at, to)), to };
    const found = symbol(latin(at + 2), bytes.subarray(at, at + 1));
    return { ...found, to: at + (found.kind === "two" ? found.value.length : 1) };
}

/** All tokens of a text's bytes, the end too. */
export function tokens(bytes) {
    const found = [];
    let [at, line, lineFrom] = [0, 1, 0];
    while (at < bytes.length) {
        const byte = bytes[at];
        if (byte === 10) [at, line, lineFrom] = [at + 1, line + 1, at + 1];
        else if (byte === 32 || byte === 9 || byte === 13) at++;
        else if (byte === code("#")) while (at < bytes.length && bytes[at] !== 10) at++;
        else {
            const token = tokenAt(bytes, at);
            found.push({ ...token, line, column: at - lineFrom + 1, from: at });
            at = token.to;
        }
    }
    found.push({ kind: "end", value: "", line, column: at - lineFrom + 1, from: at, to: at });
    return found;
}
