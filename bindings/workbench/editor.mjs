// The text of a sheet, a line an element, so that a fault can stand under its line. What stands beside and under a line
// is drawn by the style from a line's number and its attribute: the text itself is all that the element holds.
import { element } from "./dom.mjs";
import { tokens } from "./tokens.mjs";

const KINDS = { word: "word", number: "number" };

export class Editor {
    constructor(root, changed) {
        this.root = root;
        this.changed = changed;
        root.addEventListener("beforeinput", (event) => this.guard(event));
        root.addEventListener("input", (event) => event.isComposing || this.typed());
        root.addEventListener("compositionend", () => this.typed());
        root.addEventListener("paste", (event) => this.taken(event, event.clipboardData));
        root.addEventListener("drop", (event) => this.taken(event, event.dataTransfer));
        root.addEventListener("copy", (event) => this.copied(event));
        root.addEventListener("cut", (event) => this.copied(event) && document.execCommand("delete"));
        this.text = "";
    }

    get text() {
        return this.lines().join("\n");
    }

    set text(text) {
        this.root.replaceChildren(...text.replaceAll("\r\n", "\n").split("\n").map(lineOf));
    }

    // ---- typing

    // Letters have no style here, a line's end is a new line, and at its ends there is nothing to delete.
    guard(event) {
        const { inputType } = event;
        const nothing = (inputType === "deleteContentForward" && this.atEnd()) ||
            (inputType === "deleteContentBackward" && this.atStart());
        if (inputType.startsWith("format") || inputType === "insertLineBreak" || nothing) event.preventDefault();
        if (inputType === "insertLineBreak") document.execCommand("insertParagraph");
    }

    atStart() {
        const { line, column } = this.caret() ?? {};
        return getSelection().isCollapsed && line === 1 && column === 0;
    }

    atEnd() {
        const { line, column } = this.caret() ?? {};
        const lines = this.lines();
        return getSelection().isCollapsed && line === lines.length && column === lines.at(-1).length;
    }

    // What is pasted or dropped is taken as text.
    taken(event, data) {
        event.preventDefault();
        const text = data?.getData("text/plain").replaceAll("\r\n", "\n") ?? "";
        if (text !== "") document.execCommand("insertText", false, text);
    }

    // What is copied is the text, a line's end for each line.
    copied(event) {
        const chosen = getSelection();
        if (chosen.isCollapsed) return false;
        event.preventDefault();
        const nodes = [...chosen.getRangeAt(0).cloneContents().childNodes];
        event.clipboardData.setData("text/plain", nodes.map(letters).join("\n"));
        return true;
    }

    typed() {
        this.root.normalize();
        if (this.root.childNodes.length === 0 || ![...this.root.childNodes].every(plain)) this.rebuild();
        this.changed();
    }

    lines() {
        return [...this.root.childNodes].flatMap((node) => letters(node).split("\n"));
    }

    // The browser left something else than lines of text: the same text again, the caret where it was.
    rebuild() {
        const caret = this.caret();
        this.text = this.lines().join("\n");
        if (caret !== undefined) this.place(caret);
    }

    caret() {
        const { anchorNode, anchorOffset } = getSelection();
        if (anchorNode === null || !this.root.contains(anchorNode)) return undefined;
        const range = document.createRange();
        range.setStart(this.root, 0);
        range.setEnd(anchorNode, anchorOffset);
        const before = [...range.cloneContents().childNodes].flatMap((node) => letters(node).split("\n"));
        return { line: Math.max(before.length, 1), column: before.at(-1)?.length ?? 0 };
    }

    /** Puts the caret behind so many letters of a line, which is counted from 1. */
    place({ line, column }) {
        const own = this.root.childNodes[Math.min(line, this.root.childNodes.length) - 1];
        const text = own.firstChild;
        const at = text.nodeType === Node.TEXT_NODE ? text : own;
        getSelection().collapse(at, Math.min(column, at === text ? text.length : 0));
    }

    /** Gives it the focus, the caret at its end. */
    focus() {
        this.root.focus();
        this.place({ line: this.root.childNodes.length, column: Infinity });
    }

    // ---- what is shown of it

    /** Faults and warnings under their lines: [{ line, column, words }]. */
    show(faults, warnings, bytes) {
        const put = (line, name, told) => {
            if (told.length === 0) line.removeAttribute(name);
            else line.setAttribute(name, told.map(({ words }) => words).join("\n"));
        };
        [...this.root.children].forEach((line, k) => {
            put(line, "data-fault", faults.filter((fault) => fault.line === k + 1));
            put(line, "data-warning", warnings.filter((warning) => warning.line === k + 1));
        });
        this.root.setAttribute("aria-invalid", faults.length > 0);
        this.paint(faults, bytes);
    }

    // Words in colours, and a wavy line under what is at fault, where the browser can do so without elements.
    paint(faults, bytes) {
        if (!("highlights" in CSS)) return;
        const list = tokens(bytes);
        const spots = { word: [], number: [], fault: [], comment: [] };
        const first = (token) => faults.some(({ line, column }) => line === token.line && column === token.column);
        for (const token of list) {
            if (KINDS[token.kind] !== undefined) spots[KINDS[token.kind]].push(this.range(token));
            if (first(token)) spots.fault.push(this.range(token));
        }
        [...this.root.children].forEach((line) => spots.comment.push(commentOf(line)));
        for (const [name, ranges] of Object.entries(spots)) {
            CSS.highlights.set(name, new Highlight(...ranges.filter((range) => range !== undefined)));
        }
    }

    // Columns count bytes; in front of a token a line has letters outside ASCII only where it is at fault anyway.
    range({ line, column, from, to }) {
        const text = this.root.children[line - 1]?.firstChild;
        if (text?.nodeType !== Node.TEXT_NODE) return undefined;
        return rangeOf(text, Math.min(column - 1, text.length), Math.min(column - 1 + to - from, text.length));
    }
}

function lineOf(text) {
    return element("div", { class: "line" }, text === "" ? element("br") : text);
}

function rangeOf(text, from, to) {
    const range = new StaticRange({ startContainer: text, startOffset: from, endContainer: text, endOffset: to });
    return from < to ? range : undefined;
}

function commentOf(line) {
    const text = line.firstChild;
    const at = text?.nodeType === Node.TEXT_NODE ? text.data.indexOf("#") : -1;
    return at < 0 ? undefined : rangeOf(text, at, text.length);
}

// A line that holds nothing but its text.
function plain(node) {
    if (node.nodeName !== "DIV" || !node.classList.contains("line") || node.childNodes.length > 1) return false;
    const [only] = node.childNodes;
    return only?.nodeName === "BR" || (only?.nodeType === Node.TEXT_NODE && !only.data.includes("\n"));
}

// The letters of a node; a break within a line ends it, and one that stands alone is an empty line.
function letters(node) {
    if (node.nodeType === Node.TEXT_NODE) return node.data;
    if (node.nodeName === "BR") return "";
    const parts = [...node.childNodes].map((child, k, all) =>
        child.nodeName === "BR" ? (k + 1 < all.length ? "\n" : "") : letters(child));
    return parts.join("");
}
