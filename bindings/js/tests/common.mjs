// What the tests of the module share: the engine, from the folder that test.mjs is given, sheets written as fields, a
// round in play, and parts that are tried one by one.
import assert from "node:assert/strict";
import { readFileSync } from "node:fs";
import { join, resolve } from "node:path";
import { pathToFileURL } from "node:url";

export const folder = resolve(process.argv[2]);
export const lib = await import(pathToFileURL(join(folder, "engine.mjs")));
const { IDLE, HOST } = lib;
export const engine = await lib.load(readFileSync(join(folder, "engine.wasm")));

export const field = (tag, ...bytes) => [tag, bytes.length >> 8, bytes.length & 255, ...bytes];
export const event = (...v) => field(1, ...v);
export const word = (n) => [n >>> 24, (n >>> 16) & 255, (n >>> 8) & 255, n & 255];
export const active = (start, ...handlers) => field(3, ...field(4, ...word(start)), ...handlers.flat());
export const on = (e, text) => field(5, e, 0, ...engine.formula(text));
export const later = (e, text) => field(5, e, 1, ...engine.formula(text));
export const passive = (text) => field(2, ...engine.formula(text));
export const sheet = (...parts) => new Uint8Array(parts.flat());

/** A call that is turned down by this number. */
export function refused(number, make) {
    assert.throws(make, (e) => e instanceof lib.Refusal && e.number === number && e.word === lib.refusalWord(number));
}

/** A round in play. */
export class Play {
    constructor(bytes, params) {
        this.table = engine.compile(bytes, params);
        this.round = engine.start(this.table);
    }

    run(...events) {
        for (const e of events) {
            engine.arrive(this.table, this.round, e, HOST);
            this.playOut();
        }
        return this.board();
    }

    playOut() {
        while (engine.step(this.table, this.round).kind !== IDLE);
    }

    board(player = HOST) {
        const shown = [];
        for (let i = 0; i < 64; i++) {
            try {
                shown.push(engine.board(this.table, this.round, i, player));
            } catch (e) {
                if (e.number !== 18) throw e;
                return shown;
            }
        }
        return shown;
    }
}

/** Sheet S of the scope. */
export const S = sheet(event(1), event(2), active(1, on(0, "b0 + b1")), active(1, later(0, "b0 - b1"), on(1, "1")));

/** A call whose argument is told to be missing or no good. */
export function named(message, make) {
    assert.throws(make, (e) => e instanceof TypeError && e.message.includes(message));
}

/** Tries each part, `{ name: function }`; says which fail, all of them, and fails if one does. */
export async function parts(all) {
    let failed = 0;
    for (const [name, part] of Object.entries(all)) {
        try {
            await part();
        } catch (e) {
            failed++;
            console.error(`${name}: ${e.stack ?? e}`);
        }
    }
    assert.equal(failed, 0, `${failed} of ${Object.keys(all).length} parts failed`);
}
