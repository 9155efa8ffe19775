// What is told of two phones, in the words of `setter check`: whether they agree, which events meet and in which lines,
// which of them must have one rank, and on which behaviours phones are proved equal.
import { handlerLine } from "./names.mjs";
import { declares, is, tokens } from "./tokens.mjs";
import { listed, long, words } from "./words.mjs";

const PAIRS = 12; // so many pairs of events are named; the others are counted

/** The lines for a sheet and its verdict. */
export function phoneLines(sheet, { agrees, equal, pairs, groups }) {
    if (agrees) return ["phones.agree", "phones.promise", "phones.deliver", "phones.decide"].map((key) => words(key));
    if (!equal.includes(false)) {
        return ["phones.each", "phones.change", "phones.deliver", "phones.decide"].map((key) => words(key));
    }
    const meeting = pairs.filter(({ meet }) => meet);
    const formulas = formulasOf(sheet.source);
    const lines = [words("phones.apart"), ...meeting.slice(0, PAIRS).map((pair) => meets(sheet, formulas, pair))];
    if (meeting.length > PAIRS) lines.push(words("phones.more", long(meeting.length - PAIRS)));
    lines.push(...groups.map((group) => words("phones.group", listed(group.map((event) => sheet.event(event))))));
    const labels = (is_) => sheet.everything().filter(({ members }) => members.every((b) => equal[b]) === is_)
        .map(({ label }) => label);
    const [same, other] = [labels(true), labels(false)];
    if (same.length > 0) lines.push(words("behaviours.equal", listed(same)));
    return [...lines, words("behaviours.differ", listed(other))];
}

// Two events that meet: who writes comes first.
function meets(sheet, formulas, { events, ranks, behaviour, writes, reads }) {
    const order = writes[0] ? [0, 1] : [1, 0];
    const part = (k, name) => {
        const key = writes[k] ? (reads[k] ? "meets.both" : "meets.writes") : "meets.reads";
        const at = { sheet, formulas, event: sheet.event(events[k]), group: sheet.group(behaviour) };
        const lines = [writes[k] ? writesAt(at) : undefined, reads[k] ? readsAt(at) : undefined];
        const own = [...new Set(lines.filter((line) => line !== undefined))].sort((a, b) => a - b);
        const places = own.map((line, n) => words(n === 0 ? "meets.line" : "meets.and", String(line)));
        return words(key, sheet.event(events[k]), String(ranks[k]), name) + places.join("");
    };
    return `${part(order[0], sheet.behaviour(behaviour))}; ${part(order[1], "it")}`;
}

// The line in which an event writes a behaviour: its handler, or the formula that follows what the event writes.
function writesAt({ sheet, event, group }) {
    return handlerLine(sheet.source, group.name, event) ?? group.line;
}

// The first handler of an event that names a behaviour, itself or through passives.
function readsAt({ formulas, event, group }) {
    const handlers = formulas.filter((formula) => formula.event === event);
    return handlers.find((formula) => follows(formulas, formula, group.name, new Set()))?.line;
}

function follows(formulas, { names }, wanted, seen) {
    return names.some((name) => {
        if (name === wanted) return true;
        if (seen.has(name)) return false;
        seen.add(name);
        const passive = formulas.find((formula) => formula.behaviour === name && formula.event === undefined);
        return passive !== undefined && follows(formulas, passive, wanted, seen);
    });
}

/** All formulas of a text: { behaviour, event, line, names }; a passive's has no event. */
function formulasOf(bytes) {
    const list = tokens(bytes);
    const found = [];
    let behaviour;
    list.forEach((token, k) => {
        const word = declares(token);
        if (word !== undefined) behaviour = list[k + 1].value;
        if (word === "passive") found.push({ behaviour, event: undefined, line: token.line, names: [] });
        else if (word !== undefined) found.push({ names: [] }); // no formula: names behind it belong to none
        if (is(token, "word", "on")) {
            found.push({ behaviour, event: list[k + 1].value, line: token.line, names: [] });
        }
        if (token.kind === "name" && k > 0 && !is(list[k - 1], "word", "on") && declares(list[k - 1]) === undefined) {
            found.at(-1).names.push(token.value);
        }
    });
    return found;
}
