// Words that the page shares with the setter's program: hints, refusals, and numbers and lists as a reader likes them.
// The data come from hints.json and the tables of refusals and faults in bindings/rust; build.py puts them in.

let data = { hints: {}, refusals: {} };

/** The data that build.py wrote: { hints, refusals, .. }. */
export function useData(given) {
    data = given;
}

/** The words under a key, its parts put in; undefined where there are none. */
export function words(key, ...parts) {
    if (!Object.hasOwn(data.hints, key)) return undefined;
    return parts.reduce((text, part, k) => text.replaceAll(`{${k}}`, () => part), data.hints[key]);
}

/** When a call is turned down with this number, or a text with a fault of it. */
export function when(number) {
    return data.refusals[number]?.[1] ?? "";
}

/** `settling (19)`. */
export function refusal(number) {
    return `${data.refusals[number]?.[0] ?? "no refusal"} (${number})`;
}

/** A refusal with what it states. */
export function refused(number) {
    return `${refusal(number)}: ${when(number)}`;
}

/** A number with commas. */
export function long(n) {
    return String(n).replace(/\B(?=(\d{3})+$)/g, ",");
}

export function several(n, one, many) {
    return `${long(n)} ${n === 1 ? one : many}`;
}

/** `a, b and c`. */
export function listed(parts) {
    return parts.length < 2 ? parts.join("") : `${parts.slice(0, -1).join(", ")} and ${parts.at(-1)}`;
}

/** Numbers as `1, 3 to 5 and 7`. */
export function spans(numbers) {
    const runs = [];
    for (const n of numbers) {
        if (runs.length > 0 && runs.at(-1)[1] + 1 === n) runs.at(-1)[1] = n;
        else runs.push([n, n]);
    }
    const one = ([from, to]) => (to - from > 1 ? [`${from} to ${to}`] : to > from ? [`${from}`, `${to}`] : [`${from}`]);
    return listed(runs.flatMap(one));
}

/** Words on lines of at most so many letters, those after the first so far in. */
export function folded(text, width, indent) {
    let out = "";
    let column = 0;
    for (const word of text.split(" ")) {
        const length = new TextEncoder().encode(word).length;
        if (column > 0 && column + 1 + length > width) {
            out += `\n${" ".repeat(indent)}`;
            column = 0;
        } else if (column > 0) {
            out += " ";
            column += 1;
        }
        out += word;
        column += length;
    }
    return out;
}

export function player(number) {
    return number === 0 ? "the host" : `player ${number}`;
}

/** The word nearest to one that is not known: at most two letters put in, left out or changed, and some left. */
export function nearest(word, known) {
    let [least, found] = [3, undefined];
    for (const other of known) {
        const far = distance(word, other);
        if (far < least) [least, found] = [far, other];
    }
    return least < new TextEncoder().encode(word).length ? found : undefined;
}

function distance(one, other) {
    const [a, b] = [new TextEncoder().encode(one), new TextEncoder().encode(other)];
    const row = Array.from({ length: b.length + 1 }, (_, k) => k);
    for (let i = 0; i < a.length; i++) {
        let corner = i;
        row[0] = i + 1;
        for (let j = 0; j < b.length; j++) {
            const here = Math.min(corner + (a[i] === b[j] ? 0 : 1), row[j] + 1, row[j + 1] + 1);
            corner = row[j + 1];
            row[j + 1] = here;
        }
    }
    return row[b.length];
}
