// The texts at hand by their names: the examples, and what the reader opened.
import { element, one } from "./dom.mjs";
import { readScript } from "./script.mjs";
import { loadSheet } from "./sheet.mjs";
import { namesKnown } from "./stage.mjs";

export const STORY = "story-final.sheet";
export const MENDED = "story-mended.sheet";

export class Library {
    constructor(engine, files) {
        this.engine = engine;
        this.files = new Map(Object.entries(files));
    }

    text(name) {
        return this.files.get(name);
    }

    bytes(name) {
        const text = this.text(name);
        return text === undefined ? undefined : new TextEncoder().encode(text);
    }

    add(name, text) {
        this.files.set(name, text);
    }

    /** The list of examples, each under its name and the first words of its comment. */
    list() {
        const option = (name) => {
            const [, words] = /^# (?:An? )?([^:.,\n]*)/.exec(this.text(name)) ?? [];
            return element("option", { value: name }, `${name.replace(/\.sheet$/, "")}: ${words ?? ""}`);
        };
        const sheets = [...this.files.keys()].filter((name) => name.endsWith(".sheet") && !isStory(name));
        one("#examples").replaceChildren(
            element("option", { value: STORY }, "The story of the final"),
            element("optgroup", { label: "Sheets" }, ...sheets.map(option)),
            element("option", { value: "", hidden: true }, "my own"));
    }

    /** Shows which of them is there, if it is one of them as it stands. */
    choose(name, text) {
        const own = this.text(name) === text ? name : "";
        one("#examples").value = isStory(own) ? STORY : own;
    }

    /** The lines of the two scripts that go with a sheet best, by name, among those that can be played on it. */
    scripts(name) {
        const sheet = loadSheet(this.engine, name, this.bytes(name));
        const stem = name.replace(/\.sheet$/, "");
        const near = [...this.files.keys()].filter((file) => file.endsWith(".play") && nearness(stem, file) > 0);
        const ranked = near.sort((a, b) => nearness(stem, b) - nearness(stem, a));
        const [first, second] = ranked.filter((file) => this.plays(sheet, file));
        const lines = (file) => this.text(file).trimEnd().split("\n");
        return first === undefined ? [[], []] : [lines(first), lines(second ?? first)];
    }

    plays(sheet, file) {
        const place = { engine: this.engine, path: file, given: [], file: (name) => this.bytes(name) };
        try {
            namesKnown(sheet, file, readScript(this.bytes(file), place));
            return true;
        } catch (failure) {
            if (failure.name !== "Failure") throw failure;
            return false;
        }
    }
}

const isStory = (name) => name === STORY || name === MENDED;

// How near a script's name is to a sheet's: the same, the same with more behind it, or with a word in common.
function nearness(stem, file) {
    const own = file.replace(/\.play$/, "");
    if (own === stem) return 3;
    if (own.startsWith(`${stem}-`)) return 2;
    return stem.split("-").includes(own.split("-")[0]) ? 1 : 0;
}
