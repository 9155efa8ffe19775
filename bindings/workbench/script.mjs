// Scripts (.play), as `setter play` reads them: one statement a line, read whole before anything is played.
import { encoding } from "./hints.mjs";
import { Failure, loadSheet } from "./sheet.mjs";

const VERBS = "a line begins with send, steps, run, board, expect, preview, forecast, mend or repeat";
const REPEATS = 100_000; // so often a line is repeated, at most

const isWhole = (word, most) => /^\+?\d+$/.test(word) && BigInt(word.replace("+", "")) <= most;
const isValue = (word) => /^[+-]?\d+$/.test(word) && Number(word) === (Number(word) | 0);

/** A message about a script's line. */
export function wrong(path, line, why) {
    return new Failure(`${path}:${line}: ${why}`);
}

/**
 * The statements of a script's bytes: [{ line, verb, .. }]. `place` is where it stands: { engine, path, given, file,
 * most }, with the parameters given by name, `file` giving the bytes of another file by its name, or undefined, and how
 * many statements there may be, where that is bounded.
 */
export function readScript(bytes, place) {
    const hint = encoding(bytes);
    if (hint !== undefined) throw wrong(place.path, 1, hint);
    let text;
    try {
        text = new TextDecoder("utf-8", { fatal: true }).decode(bytes);
    } catch {
        throw new Failure(`${place.path}: is no text`);
    }
    const lines = text.split("\n").map((line) => line.split("#")[0].split(/\s+/).filter((word) => word !== ""));
    let room = place.most ?? Infinity;
    return lines.flatMap((words, k) => {
        const found = words.length === 0 ? [] : new Line(place, k + 1).statements(words, room);
        room -= found.length;
        return found;
    });
}

/** A line that is being read. */
class Line {
    constructor(place, number) {
        this.place = place;
        this.number = number;
    }

    wrong(why) {
        return wrong(this.place.path, this.number, why);
    }

    /** One statement, or those of a `repeat`, which commas part; at most so many as there is room for. */
    statements([verb, ...rest], room) {
        if (room < 1) throw this.wrong("these are more statements than the page plays");
        if (verb !== "repeat") return [this.ask(verb, rest)];
        const [count, ...repeated] = rest;
        const parts = repeated.join(" ").split(",").map((part) => part.split(" ").filter((word) => word !== ""));
        if (count === undefined || !isWhole(count, REPEATS) || parts.some((part) => part.length === 0)) {
            throw this.wrong("repeat needs a number and what to repeat: repeat COUNT STATEMENT [, STATEMENT ..]");
        }
        if (Number(count) * parts.length > room) throw this.wrong("these are more statements than the page plays");
        return Array.from({ length: Number(count) }, () => parts.map(([own, ...words]) => this.ask(own, words))).flat();
    }

    ask(verb, rest) {
        const line = this.number;
        switch (verb) {
            case "send": return { line, verb, ...this.send(rest) };
            case "step":
            case "steps": return { line, verb: "steps", count: this.count(verb, rest) };
            case "board": return { line, verb, ...this.player(rest, "by") };
            case "expect": return { line, verb, ...this.expect(rest) };
            case "preview": return { line, verb, ...this.preview(rest) };
            case "run":
            case "forecast":
                if (rest.length > 0) throw this.wrong(`${verb} stands alone on its line`);
                return { line, verb };
            case "mend": return { line, verb, ...this.mend(rest) };
            default: throw this.wrong(`${verb} is not known: ${VERBS}`);
        }
    }

    send(rest) {
        const { names: events, player } = this.player(rest, "from");
        if (events.length === 0) throw this.wrong("send needs an event's name: send EVENT .. [from PLAYER]");
        return { events, player };
    }

    count(verb, rest) {
        if (verb === "step" && rest.length === 0) return 1;
        if (rest.length !== 1) throw this.wrong("steps needs one number: steps COUNT");
        if (!isWhole(rest[0], 2n ** 64n - 1n)) throw this.wrong(`${rest[0]} is no number of steps`);
        return Number(rest[0]);
    }

    /** Names and values in turn. */
    expect(rest) {
        const { names: words, player } = this.player(rest, "by");
        const values = words.flatMap((word, k) => (k % 2 === 0 ? [[word, words[k + 1]]] : []));
        const fits = (value) => value === "hidden" || (value !== undefined && isValue(value));
        if (values.length === 0 || !values.every(([, value]) => fits(value))) {
            throw this.wrong("expect needs names and values: expect BEHAVIOUR VALUE .. [by PLAYER]");
        }
        return { values, player };
    }

    preview(rest) {
        const { names: [event, ...names], player } = this.player(rest, "by");
        if (event === undefined) {
            throw this.wrong("preview needs an event's name: preview EVENT [BEHAVIOUR ..] [by PLAYER]");
        }
        return { event, names, player };
    }

    /** Names, and the player behind a word at the end; the host where none is named. */
    player(words, before) {
        const named = words.length >= 2 && words.at(-2) === before;
        const names = named ? words.slice(0, -2) : words;
        if (named && !isWhole(words.at(-1), 2n ** 32n - 1n)) throw this.wrong(`${words.at(-1)} is no player's number`);
        if (names.includes(before)) {
            throw this.wrong(`${before} is followed by one player's number, at the end of the line`);
        }
        return { names, player: named ? Number(words.at(-1)) : 0 };
    }

    /** Another sheet, its parameters filled in. */
    mend([name, ...rest]) {
        if (name === undefined) {
            throw this.wrong("mend needs a file: mend FILE [by name] [PARAMETER=VALUE ..]");
        }
        const byName = rest[0] === "by" && rest[1] === "name";
        const { engine, given, file } = this.place;
        const bytes = file(name);
        if (bytes === undefined) throw new Failure(`${name}: cannot be read: it is not among the files at hand`);
        const sheet = this.loaded(engine, name, bytes);
        given.forEach(([param, value]) => sheet.set(param, value));
        for (const word of byName ? rest.slice(2) : rest) {
            const [, param, value] = /^([^=]*)=(.*)$/.exec(word) ?? [];
            if (param === undefined || !isValue(value)) throw this.wrong(`${word} is not PARAMETER=VALUE`);
            if (!sheet.set(param, Number(value))) throw this.wrong(`${name} has no parameter ${param}`);
        }
        sheet.allGiven();
        sheet.compile();
        return { sheet, byName };
    }

    loaded(engine, name, bytes) {
        try {
            return loadSheet(engine, name, bytes);
        } catch (error) {
            if (error.name !== "Fault") throw error;
            throw new Failure(`${name}:${error.line}:${error.column}: ${error.word} (${error.number})`);
        }
    }
}
