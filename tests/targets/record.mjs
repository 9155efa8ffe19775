// Replays a record of calls in WebAssembly, under node and in a page: every answer, every sum of a written buffer and
// all bytes kept in the record must come out again. tests/second/src/record.rs writes the record and says how it is
// laid out.

function sum(of) {
    let s = 0x811c9dc5;
    for (let i = 0; i < of.length; i++) s = Math.imul(s ^ of[i], 0x01000193);
    return s >>> 0;
}

class Reader {
    #bytes;
    #view;
    at = 0;

    constructor(bytes) {
        this.#bytes = bytes;
        this.#view = new DataView(bytes.buffer, bytes.byteOffset, bytes.byteLength);
    }

    get ended() {
        return this.at === this.#bytes.length;
    }

    byte() {
        return this.#view.getUint8(this.at++);
    }

    number() {
        this.at += 4;
        return this.#view.getUint32(this.at - 4);
    }

    wide() {
        this.at += 8;
        return this.#view.getBigUint64(this.at - 8);
    }

    bytes(n) {
        this.at += n;
        return this.#bytes.slice(this.at - n, this.at);
    }

    line() {
        const end = this.#bytes.indexOf(10, this.at);
        const line = new TextDecoder().decode(this.#bytes.subarray(this.at, end));
        this.at = end + 1;
        return line;
    }
}

/** How many calls were made; what differs is thrown, with the number of its call. */
export function replay(engine, bytes) {
    const record = new Reader(bytes);
    const slots = [];
    const calls = [];
    let made = 0;
    const fail = (why) => {
        throw new Error(`call ${made}: ${why}`);
    };
    for (let line = record.line(); line !== ""; line = record.line()) calls.push(line.split(" "));

    const call = () => {
        const [name, takes] = calls[record.byte()];
        const written = [];
        const given = [...takes].map((kind) => {
            if (kind === "q") return record.wide();
            if (kind === "n") return record.number();
            const slot = record.byte();
            if (kind === "w") written.push(slot);
            return slots[slot].subarray(0, record.number());
        });
        const got = engine.call(name, ...given);
        const want = record.wide();
        if (got !== want) fail(`${name} answers ${got}, not ${want}`);
        for (const slot of written) {
            if (sum(slots[slot]) !== record.number()) fail(`${name} leaves other bytes in slot ${slot}`);
        }
        made++;
    };

    for (let op = String.fromCharCode(record.byte()); op !== "E"; op = String.fromCharCode(record.byte())) {
        if (op === "C") {
            call();
            continue;
        }
        const slot = record.byte();
        if (op === "Y") slots[slot] = slots[record.byte()].slice();
        else if (op === "B") slots[slot] = record.bytes(record.number());
        else if (op === "F") slots[slot] = new Uint8Array(record.number()).fill(record.byte());
        else if (op === "P") slots[slot][record.number()] = record.byte();
        else if (op === "K") {
            const [kept, own] = [record.bytes(record.number()), slots[slot]];
            if (kept.length !== own.length || kept.some((b, k) => b !== own[k])) fail(`other bytes in slot ${slot}`);
        } else fail("the record is damaged");
    }
    if (record.wide() !== BigInt(made) || !record.ended) fail("the record says another number of calls");
    return made;
}
