// What an accepted text calls its parameters, events and behaviours: the bytes of a sheet have no names. Reserved words
// begin declarations wherever they stand outside a comment, and the name stands behind. Nothing is judged here.
import { declares, is, tokens } from "./tokens.mjs";

/** { params, events, groups } of a text's bytes; a group is a behaviour, or a row of them. */
export function namesOf(bytes) {
    const list = tokens(bytes);
    const names = { params: [], events: [], groups: [] };
    list.slice(0, -1).forEach((token, k) => {
        const kind = declares(token);
        const { value: name, line, column } = list[k + 1];
        if (kind === "param") names.params.push({ name, value: valueAt(list, k + 2) });
        else if (kind === "event") names.events.push({ name, line });
        else if (kind !== undefined) {
            const last = names.groups.at(-1);
            const first = last === undefined ? 0 : last.first + last.count;
            const cells = kind === "row" ? list[k + 3].value : undefined;
            names.groups.push({ name, kind, first, cells, count: cells ?? 1, line, column });
        }
    });
    return names;
}

// the value behind a parameter's name, where one is given
function valueAt(list, k) {
    if (!is(list[k], "mark", "=")) return undefined;
    return is(list[k + 1], "two", "-") ? -list[k + 2].value : list[k + 1].value;
}

const SORTS = { param: "param", event: "event", passive: "behaviour", active: "behaviour", row: "behaviour" };

/** The declarations of an accepted text, each with all that stands up to the next one: { sort, name, text }. */
export function parts(bytes) {
    const list = tokens(bytes);
    const firsts = list.flatMap((token, k) => (declares(token) === undefined ? [] : [k]));
    return firsts.map((first, k) => {
        const to = k + 1 < firsts.length ? list[firsts[k + 1]].from : bytes.length;
        const { value, from } = list[first];
        return { sort: SORTS[value], name: list[first + 1].value, text: bytes.subarray(from, to) };
    });
}

/** The line of a behaviour's handler for an event. */
export function handlerLine(bytes, behaviour, event) {
    const list = tokens(bytes);
    let own = false;
    for (let k = 0; k + 1 < list.length; k++) {
        if (SORTS[declares(list[k])] === "behaviour") own = list[k + 1].value === behaviour;
        if (own && is(list[k], "word", "on") && list[k + 1].value === event) return list[k].line;
    }
    return undefined;
}

/** The numbers of the parameters that formulas of a described text name: it calls them p0, p1 and so on. */
export function paramsUsed(bytes) {
    const list = tokens(bytes);
    const used = list.filter((token, k) => /^p\d+$/.test(token.value) && !(k > 0 && is(list[k - 1], "word", "param")));
    return used.map((token) => Number(token.value.slice(1)));
}
