// What the engine states of a sheet, on the page: accepted or not, the phones, the limits, the players.
import { element, one } from "./dom.mjs";
import { phoneLines } from "./meets.mjs";
import { listed, long, spans } from "./words.mjs";

/** A sheet that is accepted, with its verdict. */
export function showVerdict(sheet, found) {
    const answer = found.agrees ? "agree" : found.equal.includes(false) ? "apart" : "each";
    const [first, ...lines] = phoneLines(sheet, found);
    one("#verdict").className = `verdict ${answer}`;
    one("#verdict-line").textContent = `Accepted. Two phones ${first}.`;
    one("#agreement").replaceChildren(...lines.map((line) => element("li", {}, line)));
    one("#part-actions").hidden = answer !== "apart";
    one("#part-told").textContent = "";
    one("#limits").replaceChildren(...found.sizes.map(sizeRow));
    one("#leaks").replaceChildren(...found.players.map((group) => element("li", {}, playerLine(group))));
}

/** A text that is turned down; `still` is whether an earlier one is played. */
export function showRefusal(faults, still) {
    const count = faults.length === 1 ? "one fault" : `${faults.length} faults`;
    const more = still ? " The phones play the text that was accepted last." : "";
    one("#verdict").className = "verdict faulty";
    one("#verdict-line").textContent = `Turned down, ${count}, the first in line ${faults[0].line}.${more}`;
}

function sizeRow({ what, has, most, longest }) {
    return element("tr", {},
        element("th", { scope: "row" }, what),
        element("td", {}, `${long(has)} of ${long(most)}`),
        element("td", {}, element("meter", { min: 0, max: most, value: has, "aria-label": what })),
        element("td", { class: "note" }, longest === undefined ? "" : `longest: ${longest}`));
}

function playerLine({ who, hidden, leak }) {
    const whose = `Player${who.length > 1 ? "s" : ""} ${spans(who)}`;
    if (hidden.length === 0) return `${whose}: nothing is hidden from them.`;
    const what = `${whose}: ${listed(hidden)} ${hidden.length === 1 ? "is" : "are"} hidden`;
    if (leak.length === 0) return `${what}, and nothing that they see depends on that.`;
    return `${what}, but may leak: ${leak[0]} is seen and depends on ${leak[1]}.`;
}
