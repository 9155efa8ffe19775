// A state in an address behind #: JSON, packed, as letters that an address may have. What an address holds is checked
// before it is used: its parts have their kinds and their sizes, and all else is left out.

const MOST = 400_000; // bytes of a state
const TEXT = 131_072; // letters of one text in it
const VERSION = "1";

const bytesOf = async (stream) => new Uint8Array(await new Response(stream).arrayBuffer());

/** The part of an address behind #, without it. */
export async function packed(state) {
    const bytes = new TextEncoder().encode(JSON.stringify(state));
    const small = await bytesOf(new Blob([bytes]).stream().pipeThrough(new CompressionStream("deflate-raw")));
    const letters = btoa(Array.from(small, (byte) => String.fromCharCode(byte)).join(""));
    return VERSION + letters.replaceAll("+", "-").replaceAll("/", "_").replace(/=+$/, "");
}

/** The state of an address; an Error where there is none. */
export async function unpacked(text) {
    if (!text.startsWith(VERSION)) throw new Error("the address is of another kind");
    const letters = atob(text.slice(1).replaceAll("-", "+").replaceAll("_", "/"));
    const small = Uint8Array.from(letters, (letter) => letter.charCodeAt(0));
    const stream = new Blob([small]).stream().pipeThrough(new DecompressionStream("deflate-raw"));
    return checked(JSON.parse(new TextDecoder().decode(await limited(stream))));
}

// All of a stream, as long as that is not too much.
async function limited(stream) {
    const parts = [];
    let size = 0;
    for (const reader = stream.getReader(); ; ) {
        const { done, value } = await reader.read();
        if (done) break;
        size += value.length;
        if (size > MOST) throw new Error("the address holds too much");
        parts.push(value);
    }
    return new Uint8Array(await new Blob(parts).arrayBuffer());
}

const textOf = (given) => {
    if (typeof given !== "string" || given.length > TEXT) throw new Error("the address is damaged");
    return given;
};

const within = (given, low, high, other) => (Number.isInteger(given) && given >= low && given <= high ? given : other);

/** The parts of a state that are as they must be: { name, text, given, phones, look, sender }. */
export function checked(state) {
    const phones = state?.phones;
    if (!Array.isArray(phones) || phones.length !== 2) throw new Error("the address is damaged");
    const given = Object.entries(state.given ?? {}).filter(([, value]) => value === (value | 0));
    return {
        name: textOf(state.name).slice(0, 100),
        text: textOf(state.text),
        given: given.slice(0, 8),
        phones: phones.map((phone) => ({ script: textOf(phone?.script), frame: within(phone.frame, 1, 9999, 8) })),
        look: within(state.look, 0, 7, 0),
        sender: within(state.sender, 0, 7, 0),
    };
}
