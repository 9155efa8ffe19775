// A match: a round of the engine with all that an app keeps beside it. It is played in frames, saved, gone on with, and
// audited: what was asked of the engine is asked again, from the sheets on, and must come to the same.
import { FRAME_IDLE, FRAME_REFUSED, NotThere, Refusal, sameTable } from "poqashem-engine";

const ROOM = 64; // commits told of in one frame; there are never more in hand
const TO_IDLE = 300000; // steps: more than the (64 + 1) x (4,096 + 1) that a hand takes at most
// Kinds of a recorded call, as the league's format has them.
const [ARRIVE, BOARD, MEND, FRAME] = [0, 2, 5, 6];

// The answer of a call as the record has it: 0 or 2^32 and a word, or the refusal's number.
function asked(call) {
    try {
        return { value: call(), refusal: 0 };
    } catch (e) {
        if (!(e instanceof Refusal)) throw e;
        return { refusal: e.number };
    }
}

const worth = ({ value, refusal }) => (refusal ? BigInt(refusal) : (1n << 32n) | BigInt(value >>> 0));
const frameAnswer = ({ steps, commits, end }) =>
    (BigInt(end) << 56n) | (BigInt(commits.length) << 32n) | BigInt(steps);

export class Match {
    #engine;
    #round;
    #sheets = []; // { sheet, params }: the first, and those that it was or was not changed to
    #inForce = 0;
    #record = []; // { kind, first, second, answer, commits }

    constructor(engine, sheet, params) {
        this.#engine = engine;
        this.#sheets.push({ sheet, params });
        this.#round = engine.open(engine.compile(sheet, params));
    }

    // Forecast, preview and taken change nothing, and are not recorded.
    get round() {
        return this.#round;
    }

    // The table's sheet and parameters, compiled.
    table(which = this.#inForce) {
        const { sheet, params } = this.#sheets[which];
        return this.#engine.compile(sheet, params);
    }

    #kept(kind, first, second, answer, commits = []) {
        this.#record.push({ kind, first, second, answer, commits: commits.map((step) => step.answer) });
    }

    // Entry `number` of the order that all phones share: its commit, where room had to be made. It is recorded as what
    // it is, a frame of the steps that made room, and an arrival; one that is refused did nothing.
    deliver(number, event, player) {
        const { steps, commits } = this.#round.deliver(number, event, player);
        if (commits.length > 0) this.#kept(FRAME, steps, ROOM, (1n << 32n) | BigInt(steps), commits);
        this.#kept(ARRIVE, event, player, 0n);
        return commits;
    }

    // One frame: its commits, and whether nothing is left.
    frame(steps) {
        const did = this.#round.frame(steps, ROOM);
        this.#kept(FRAME, steps, ROOM, frameAnswer(did), did.commits);
        if (did.end === FRAME_REFUSED) throw new Error("not a round of this table");
        return { commits: did.commits, idle: did.end === FRAME_IDLE };
    }

    // What this phone sends before a round, and whether what came from another phone is of the same program.
    greeting() {
        return { version: JSON.stringify(this.#engine.version()), table: this.table() };
    }

    meets({ version, table }) {
        const own = this.greeting();
        if (version !== own.version) return "of another version";
        return sameTable(table, own.table) ? "accepted" : "another program";
    }

    // The place of the order at which exactly `number` entries are taken in, the round run to idle: the commits.
    #settle(number) {
        const taken = this.#round.taken().number;
        if (taken !== number) throw new NotThere("settle", number, taken);
        const all = [];
        for (;;) {
            const { commits, idle } = this.frame(TO_IDLE);
            all.push(...commits);
            if (idle) return all;
        }
    }

    // The board there, null for what the player may not see, and the commits on the way.
    boardAfter(number, player) {
        const commits = this.#settle(number);
        const length = this.#engine.behaviourCount(this.table());
        const seen = Array.from({ length }, (_, b) => this.board(b, player));
        return { commits, board: seen.map(({ value, refusal }) => (refusal ? null : value)) };
    }

    // The change to another sheet there: the commits on the way.
    mendAfter(number, sheet, params) {
        const commits = this.#settle(number);
        const refusal = this.mend(sheet, params);
        if (refusal) throw new Refusal("mend", refusal);
        return commits;
    }

    // A behaviour's value, or its refusal.
    board(behaviour, player) {
        const got = asked(() => this.#round.board(behaviour, player));
        this.#kept(BOARD, behaviour, player, worth(got));
        return got;
    }

    // The round goes on under another sheet; a sheet that is tried again is kept once. 0, or the refusal's number.
    mend(sheet, params) {
        const table = this.#engine.compile(sheet, params);
        let which = this.#sheets.findIndex((own) => Buffer.compare(own.sheet, sheet) === 0);
        if (which < 0) which = this.#sheets.push({ sheet, params }) - 1;
        const { refusal } = asked(() => this.#round.mend(table));
        this.#kept(MEND, which, 0, BigInt(refusal));
        if (refusal === 0) this.#inForce = which;
        return refusal;
    }

    // Asks all again, from a fresh round on: whether each answer and the round's bytes are the same.
    audit(record = this.#record) {
        const round = this.#engine.open(this.table(0));
        const same = record.every((call) => Match.#same(round, call, (which) => this.table(which)));
        return same && Buffer.compare(round.bytes(), this.#round.bytes()) === 0;
    }

    static #same(round, { kind, first, second, answer, commits }, table) {
        if (kind === ARRIVE) return BigInt(asked(() => round.arrive(first, second)).refusal) === answer;
        if (kind === BOARD) return worth(asked(() => round.board(first, second))) === answer;
        if (kind === MEND) return BigInt(asked(() => round.mend(table(first))).refusal) === answer;
        const did = round.frame(first, second);
        return frameAnswer(did) === answer && did.commits.every((step, k) => step.answer === commits[k]);
    }

    // The record with its last answer changed, as a cheat would.
    forged() {
        const last = this.#record.at(-1);
        return [...this.#record.slice(0, -1), { ...last, answer: last.answer ^ 1n }];
    }

    // As text, and back: what it says is held to its record, since anybody may have changed it.
    save() {
        const hex = (bytes) => Buffer.from(bytes).toString("hex");
        const sheets = this.#sheets.map(({ sheet, params }) => [hex(sheet), hex(params)]);
        const record = this.#record.map((c) => ({ ...c, answer: `${c.answer}`, commits: c.commits.map(String) }));
        const version = this.#engine.version();
        return JSON.stringify({ version, round: hex(this.#round.bytes()), inForce: this.#inForce, sheets, record });
    }

    static load(engine, text) {
        const bytes = (hex) => new Uint8Array(Buffer.from(hex, "hex"));
        const { version, round, inForce, sheets, record } = JSON.parse(text);
        if (version.layout !== engine.version().layout) throw new Error("saved by another version");
        const all = sheets.map(([sheet, params]) => ({ sheet: bytes(sheet), params: bytes(params) }));
        const match = new Match(engine, all[0].sheet, all[0].params);
        match.#sheets = all;
        match.#inForce = inForce;
        match.#record = record.map((c) => ({ ...c, answer: BigInt(c.answer), commits: c.commits.map(BigInt) }));
        match.#round = engine.resume(match.table(), bytes(round));
        if (!match.audit()) throw new Error("the record comes to something else");
        return match;
    }

    // The record as a file of one round for the league's audit program, whose format bindings/rust has.
    exported(name) {
        const { interface: calls, layout } = this.#engine.version();
        const body = [...word(calls * 65536 + layout, 4), ...word(name.length, 2), ...Buffer.from(name)];
        body.push(...word(this.#sheets.length, 2));
        for (const { sheet, params } of this.#sheets) body.push(1, ...params, ...word(sheet.length, 4), ...sheet);
        for (const { kind, first, second, answer, commits } of this.#record) {
            body.push(kind, ...(kind === MEND ? word(first, 2) : [...word(first, 4), ...word(second, 4)]));
            for (const wide of [answer, ...commits]) {
                body.push(...word(Number(wide >> 32n), 4), ...word(Number(wide & 0xffffffffn), 4));
            }
        }
        const head = [0xf5, 0x52, 0x4e, 0x44, ...word(body.length, 4), ...word(sum(body), 4)];
        return Buffer.from([...Buffer.from("engine rounds 1\n"), ...head, ...word(sum(head), 4), ...body]);
    }
}

// A big-endian number of so many bytes.
function word(n, bytes) {
    return Array.from({ length: bytes }, (_, k) => Math.floor(n / 256 ** (bytes - 1 - k)) % 256);
}

// CRC-32 as zip and PNG have it.
function sum(bytes) {
    let s = -1;
    for (const byte of bytes) {
        s ^= byte;
        for (let bit = 0; bit < 8; bit++) s = (s >>> 1) ^ (s & 1 ? 0xedb88320 : 0);
    }
    return ~s >>> 0;
}
