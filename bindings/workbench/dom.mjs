// Elements by name, with text as text: nothing here or elsewhere on the page reads markup.

export const one = (selector, within = document) => within.querySelector(selector);

/** An element with attributes, handlers (functions) and children: elements, or texts, which stay texts. */
export function element(name, attributes = {}, ...children) {
    return filled(document.createElement(name), attributes, children);
}

/** The same, of a picture. */
export function shape(name, attributes = {}, ...children) {
    return filled(document.createElementNS("http://www.w3.org/2000/svg", name), attributes, children);
}

function filled(node, attributes, children) {
    for (const [name, value] of Object.entries(attributes)) {
        if (typeof value === "function") node.addEventListener(name, value);
        else if (value !== undefined && value !== false) node.setAttribute(name, value === true ? "" : String(value));
    }
    const there = children.filter((child) => child !== undefined);
    node.append(...there.map((child) => (child instanceof Node ? child : String(child))));
    return node;
}

/** A file for the reader's disk. */
export function save(name, text) {
    const address = URL.createObjectURL(new Blob([text], { type: "text/plain" }));
    element("a", { href: address, download: name }).click();
    setTimeout(() => URL.revokeObjectURL(address), 10_000);
}

/** Whether the reader wants little motion. */
export const still = () => matchMedia("(prefers-reduced-motion: reduce)").matches;

export const wait = (time) => new Promise((done) => setTimeout(done, time));
