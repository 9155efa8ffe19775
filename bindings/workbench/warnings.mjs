// Warnings of a text that is accepted: what can be written so, and is hardly meant. It follows bindings/rust/text,
// which `setter check` takes them from, in the same words.
import { declared } from "./reader.mjs";
import { LEVELS, tokens } from "./tokens.mjs";
import { words } from "./words.mjs";

const COMPARES = [3, 4]; // the levels of operators that compare
const ANY = [-2147483648, 2147483647];
const NO = [0, 0];
const YES = [1, 1];
const EITHER = [0, 1];

/** All warnings of an accepted text's bytes, by place: [{ line, column, words }]. */
export function warnings(bytes) {
    const sheet = declared(bytes);
    const formulas = formulasOf(sheet);
    const found = chains(tokens(bytes));
    const chained = found.map(({ line }) => line);
    found.push(...unused(sheet, formulas));
    for (const { token, formula, own } of formulas) {
        const always = chained.includes(token.line) ? undefined : decided(formula);
        if (always !== undefined) found.push(warning(token, always ? "warn.true" : "warn.false"));
        if (own !== undefined && formula.name === own && formula.cell === undefined) {
            found.push(warning(token, "warn.own", own));
        }
    }
    return found.sort((a, b) => a.line - b.line || a.column - b.column);
}

function warning({ line, column }, key, ...parts) {
    return { line, column, words: words(key, ...parts) };
}

/** All formulas, the passives' at their names, the handlers' at their events' names: { token, formula, own, of }. */
function formulasOf({ behaviours }) {
    return [...behaviours].flatMap(([name, { token, passive, handlers }]) => {
        if (passive !== undefined) return [{ token, formula: passive, of: name }];
        return handlers.map((handler) => ({ ...handler, own: name, of: name }));
    });
}

/** Comparisons of a comparison, which are not in brackets. */
function chains(list) {
    const found = [];
    const last = [undefined]; // the last comparison at each depth of brackets
    for (const token of list) {
        const { kind, value } = token;
        if (kind === "mark" && value === "(") last.push(undefined);
        else if (kind === "mark" && value === ")" && last.length > 1) last.pop();
        else if (kind === "mark" || kind === "word") last[last.length - 1] = undefined;
        if (kind !== "two") continue;
        const [level, before] = [LEVELS.get(value), last.at(-1)];
        if (COMPARES.includes(level) && LEVELS.get(before) === level) {
            found.push(warning(token, "warn.chain", before, value));
        }
        if (level >= COMPARES[0]) last[last.length - 1] = value;
    }
    return found;
}

function names({ name, operands }) {
    return operands === undefined ? [name] : operands.flatMap(names);
}

/** Events that nothing handles, parameters that no formula has, behaviours that nobody sees or reads. */
function unused({ params, events, behaviours }, formulas) {
    const handled = [...behaviours.values()].flatMap(({ handlers }) => handlers.map(({ token }) => token.value));
    const read = formulas.flatMap(({ formula }) => names(formula));
    const readElsewhere = (own) => formulas.some(({ formula, of }) => of !== own && names(formula).includes(own));
    const silent = [...events].filter(([name]) => !handled.includes(name));
    const unread = [...params].filter(([name]) => !read.includes(name));
    const hidden = [...behaviours].filter(([name, { nobody }]) => nobody && !readElsewhere(name));
    return [
        ...silent.map(([name, token]) => warning(token, "warn.unhandled", name)),
        ...unread.map(([name, token]) => warning(token, "warn.param", name)),
        ...hidden.map(([name, { token }]) => warning(token, "warn.unused", name)),
    ];
}

// ---- conditions: the values that a formula may have, at least and at most

/** Whether a value is always true or always false. */
function truth([low, high]) {
    if (low === 0 && high === 0) return false;
    return low > 0 || high < 0 ? true : undefined;
}

const answer = (is) => (is === undefined ? EITHER : is ? YES : NO);
const not = (is) => (is === undefined ? undefined : !is);

function less(a, b) {
    if (a[1] < b[0]) return true;
    return a[0] >= b[1] ? false : undefined;
}

function equal(a, b) {
    if (a[1] < b[0] || b[1] < a[0]) return false;
    return a[0] === a[1] && a[0] === b[0] && b[0] === b[1] ? true : undefined;
}

function either(a, b) {
    if (a === true || b === true) return true;
    return a === false && b === false ? false : undefined;
}

// A sum or a product that may be too large can be anything.
function exact(...ends) {
    const range = [Math.min(...ends), Math.max(...ends)];
    return range[0] < ANY[0] || range[1] > ANY[1] ? ANY : range;
}

const RANGES = {
    "||": (a, b) => answer(either(truth(a), truth(b))),
    "&&": (a, b) => answer(not(either(not(truth(a)), not(truth(b))))),
    "+": (a, b) => exact(a[0] + b[0], a[1] + b[1]),
    "-": (a, b) => exact(a[0] - b[1], a[1] - b[0]),
    "*": (a, b) => exact(a[0] * b[0], a[0] * b[1], a[1] * b[0], a[1] * b[1]),
    "/": () => ANY,
    ">": (a, b) => answer(less(b, a)),
    ">=": (a, b) => answer(not(less(a, b))),
    "<": (a, b) => answer(less(a, b)),
    "<=": (a, b) => answer(not(less(b, a))),
    "==": (a, b) => answer(equal(a, b)),
    "!=": (a, b) => answer(not(equal(a, b))),
    "!": (a) => answer(not(truth(a))),
    if: (condition, a, b) => {
        const is = truth(condition);
        if (is !== undefined) return is ? a : b;
        return [Math.min(a[0], b[0]), Math.max(a[1], b[1])];
    },
};

function range({ value, function: name, operands }) {
    if (value !== undefined) return [value, value];
    return name === undefined ? ANY : RANGES[name](...operands.map(range));
}

/** The first condition in a formula, from the outside, that is always true or always false. */
function decided(formula) {
    const { function: name, operands } = formula;
    if (name === undefined) return undefined;
    const condition = name === "if" ? operands[0] : formula;
    const own = ["+", "-", "*", "/"].includes(name) ? undefined : truth(range(condition));
    if (own !== undefined) return own;
    for (const operand of operands) {
        const found = decided(operand);
        if (found !== undefined) return found;
    }
    return undefined;
}
