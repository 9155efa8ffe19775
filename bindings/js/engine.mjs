// The round engine in WebAssembly, for a browser or node. The calls are those of include/engine.h; README.md of the
// package, docs/host/JAVASCRIPT.md, says how they are used. Tables, rounds and sheets are plain Uint8Arrays: save and send
// them as they are. A Round is one that stays in the module's memory while it is played.

export const VERSION = 1; // of the interface
export const LAYOUT = 1; // of table and round
export const SHEET = 8192;
export const PARAMS = 32;
export const TABLE = 34816;
export const ROUND = 2048;
export const FIELD = 7168;
export const SHEET_TEXT = 65536;
export const LIST = 64;
export const HAND = 64; // arrivals in hand, at most
export const HOST = 0;
export const NO_EVENT = 255;

/** What a step did. */
export const IDLE = 0;
export const RAN = 1;
export const STARTED = 2;
export const COMMITTED = 3;
export const BROKE_IN = 4;
export const STEP_REFUSED = 14;

/** Why a frame ended: all steps were made; nothing is left in hand, told before the others; a step was refused; there
 * is no room for a further commit. */
export const FRAME_MADE = 0;
export const FRAME_IDLE = 1;
export const FRAME_REFUSED = 2;
export const FRAME_FULL = 3;

/** How a delivery ended that was not refused: taken in; a full hand and no room for a commit; a step was refused. */
export const DELIVERED = 1;
export const DELIVER_FULL = 2;
export const DELIVER_BROKEN = 3;

/** The kinds of a recorded call. */
export const CALL_ARRIVE = 0;
export const CALL_STEP = 1;
export const CALL_BOARD = 2;

const WORDS = [
    "accepted", "short table", "blank", "long sheet", "torn", "wrong tag", "wrong length", "crowded", "off the scale",
    "too deep", "doubled", "unknown name", "circle", "overlong", "foreign", "no such event", "full hand", "spent",
    "no such behaviour", "settling", "no parameters", "no formula", "large number", "short buffer", "no player",
    "no right", "unlike ranks", "short join", "strange hand", "dependent", "leak", "outside the grammar",
    "number too large", "off the scale", "too many", "declared twice", "second handler", "too deep", "unknown name",
    "no such cell", "sheet too long", "buffer too short", "text too long", "missing entries", "taken before",
];

/** The word of a refusal's number. */
export function refusalWord(number) {
    return WORDS[number] ?? "no refusal";
}

/** A call was turned down: its number and its word. It changed nothing. */
export class Refusal extends Error {
    constructor(call, number) {
        super(`${call}: ${number}, ${refusalWord(number)}`);
        this.name = "Refusal";
        this.number = number;
        this.word = refusalWord(number);
    }
}

/** A board or a change was asked for at another number of entries than are taken in: `taken` tells how many are. */
export class NotThere extends Error {
    constructor(call, asked, taken) {
        super(`${call}: ${taken} entries are taken in, not ${asked}`);
        this.name = "NotThere";
        this.taken = taken;
    }
}

/** A sheet's text was turned down: its first fault, by number and word, line and column, both from 1. */
export class Fault extends Error {
    constructor(answer) {
        const number = Number(answer >> 56n);
        const line = Number((answer >> 28n) & 0xfffffffn);
        const column = Number(answer & 0xfffffffn);
        super(`${line}:${column}: ${number}, ${refusalWord(number)}`);
        this.name = "Fault";
        Object.assign(this, { number, word: refusalWord(number), line, column });
    }
}

// What each call takes, by kind and name: r a buffer that it reads, w one that it writes, n a number of 32 bits, q one
// of 64.
const TAKES = new Map(Object.entries({
    compile: "r sheet, r params, w table",
    circle: "r sheet, r params, w list",
    start: "r table, w round",
    arrive: "r table, w round, n event, n player",
    deliver: "r table, w round, n number, n event, n player, w commits",
    taken: "r table, r round",
    step: "r table, w round",
    told: "q answer",
    board: "r table, r round, n behaviour, n player",
    forecast: "r table, r round",
    preview: "r table, r round, n event, n behaviour, n player",
    mend: "r old, r table, w round",
    formula: "r text, w buffer",
    join: "r first, r second, r params, w buffer",
    replay: "r table, w round, r calls, w answers",
    version: "",
    event_count: "r table",
    behaviour_count: "r table",
    event_rank: "r table, n event",
    frame: "r table, w round, n steps, w commits",
    agree: "r sheet, r params",
    agree_for: "r sheet, r params, n behaviour",
    pair: "r sheet, r params, n first, n second",
    leak: "r sheet, r params, n player",
    assemble: "r text, w buffer",
    describe: "r sheet, w buffer",
}).map(([call, list]) => [call, list === "" ? [] : list.split(", ").map(argument)]));

function argument(text) {
    const [kind, name] = text.split(" ");
    return { kind, name, buffer: kind === "r" || kind === "w" };
}

const TABLE_ARGUMENT = argument("r table");
const ROUND_ARGUMENT = argument("r round");
const PAGE = 65536;
const NONE = new Uint8Array(0);
const WORD = 0xffffffff;
const CALL_PLAYER = 255; // the most that a recorded call's player can be: no player, as every number over 7
const FOREIGN = 14;
const NO_RIGHT = 25;
const TABLE_LENGTH = BigInt(TABLE);
const ROUND_LENGTH = BigInt(ROUND);
const ANSWER = 8; // bytes of one
const ROOMS = Array.from({ length: HAND + 2 }, (_, k) => BigInt(ANSWER * k)); // bytes for k commits
const OVER = 1 << 24; // of an answer's high half: the event ran over
const NOBODY = null; // no call is under way
const NO_ROUND = { at: 0 }; // one that writes no round
const GROWTH = 16; // pages at least, so that opening rounds one by one seldom waits for memory

// An answer of 64 bits by its halves: no arithmetic on BigInts, which would take as long as the call.
const WIDE = new BigInt64Array(1);
const HALVES = new Uint32Array(WIDE.buffer);
const LOW = new Uint8Array(new Uint32Array([1]).buffer)[0] === 1 ? 0 : 1;
const HIGH = 1 - LOW;

/**
 * What a step did, and with a start, a commit or a break-in the arrival's player, event and number. These parts are
 * what is copied, cloned and written as JSON; what comes back of them is taken wherever a step is.
 */
class Step {
    constructor(kind, player, event, arrival, over) {
        this.kind = kind;
        this.player = player;
        this.event = event;
        this.arrival = arrival;
        this.over = over;
    }

    /** The packed answer, a BigInt, as C has it. */
    get answer() {
        return packed(this);
    }
}

/** The parts of a step's answer, as `call` and `replay` give it. */
export function stepOf(answer) {
    WIDE[0] = answer;
    return stepOfHalves(HALVES[HIGH], HALVES[LOW]);
}

function stepOfHalves(high, low) {
    const arrival = ((high << 16) | (low >>> 16)) >>> 0;
    return new Step(low & 15, (low >> 4) & 15, (low >> 8) & 255, arrival, (high & OVER) !== 0);
}

// The answer of a step, which may come from another phone.
function packed(step) {
    const part = (name, most) => BigInt(within("step", name, step[name], most));
    if (typeof step.over !== "boolean") throw new TypeError("step: over is no boolean");
    const arrival = (part("arrival", WORD) << 16n) | (part("event", 255) << 8n) | (part("player", 15) << 4n);
    return (BigInt(step.over) << 56n) | arrival | part("kind", 15);
}

/** Loads engine.wasm: its bytes, a WebAssembly.Module, or a Response (a promise of one will do). */
export async function load(source) {
    const given = await source;
    if (tagged(given, "WebAssembly.Module")) return new Engine(given, await WebAssembly.instantiate(given));
    const both = tagged(given, "Response") ? await received(given) : await WebAssembly.instantiate(given);
    return new Engine(both.module, both.instance);
}

// Compiled while it is received, where the browser can and the server names the type; else when all of it is there.
async function received(response) {
    const { ok, status, statusText, url } = response;
    if (!ok) throw new Error(`load: ${url || "the response"} has status ${`${status} ${statusText}`.trim()}`);
    const type = response.headers.get("content-type")?.trim().toLowerCase();
    const own = typeof Response === "function" && response instanceof Response;
    const streams = own && typeof WebAssembly.instantiateStreaming === "function";
    if (streams && type === "application/wasm") return WebAssembly.instantiateStreaming(response);
    return WebAssembly.instantiate(await response.arrayBuffer());
}

// By its tag, so that it may be of another realm: a frame, a vm, a test's own globals.
function tagged(given, tag) {
    return Object.prototype.toString.call(given) === `[object ${tag}]`;
}

function isBytes(given) {
    return ArrayBuffer.isView(given) && given[Symbol.toStringTag] === "Uint8Array";
}

function whole(call, name, n) {
    return typeof n === "number" && n >>> 0 === n ? n : within(call, name, n, WORD);
}

function within(call, name, n, most) {
    if (n === undefined) throw new TypeError(`${call}: ${name} is missing`);
    if (typeof n !== "number") throw new TypeError(`${call}: ${name} is no number`);
    if (!Number.isInteger(n) || n < 0 || n > most) throw new RangeError(`${call}: ${name}: ${n} is not 0 to ${most}`);
    return n;
}

function checked(call, { kind, name, buffer }, given) {
    if (given === undefined) throw new TypeError(`${call}: ${name} is missing`);
    if (kind === "n") whole(call, name, given);
    else if (buffer && !isBytes(given)) throw new TypeError(`${call}: ${name} is no Uint8Array`);
    else if (kind === "q" && typeof given !== "bigint") throw new TypeError(`${call}: ${name} is no BigInt`);
}

// A text as bytes; bytes of UTF-8 are taken as they are.
function bytesOfText(call, text) {
    if (isBytes(text)) return text;
    if (typeof text !== "string") throw new TypeError(`${call}: text is no string`);
    return new TextEncoder().encode(text);
}

// Room for as many commits as a frame can make: one for each step and each arrival in hand. One more, so that it is
// never the room that ends it where more was asked for.
function roomFor(steps, most) {
    if (most !== Infinity) whole("frame", "most", most);
    return Math.min(most, whole("frame", "steps", steps) + 1, HAND + 1);
}

// Tables and rounds that stay in memory: in that of an instance of their own, which no other call writes to.
class Arena {
    constructor(module) {
        this.module = module;
        this.calls = new WebAssembly.Instance(module).exports;
        this.commits = this.calls.memory.buffer.byteLength; // what the engine has of its own ends here
        this.top = this.commits + ANSWER * (HAND + 1);
        this.tables = new Set(); // { at, rounds }: its place, and how many rounds are on it
        this.spare = { tables: [], rounds: [] }; // places given back
        this.busy = NOBODY; // what the call under way writes
        this.seen = undefined;
        this.reserve(0);
    }

    // Memory for what there is and for so much more.
    reserve(more) {
        const { memory } = this.calls;
        const lacking = this.top + more - memory.buffer.byteLength;
        if (lacking > 0) memory.grow(Math.max(Math.ceil(lacking / PAGE), GROWTH));
    }

    take(spare, size) {
        if (spare.length > 0) return spare.pop();
        this.reserve(size);
        this.top += size;
        return this.top - size;
    }

    bytes(at, size) {
        return new Uint8Array(this.calls.memory.buffer, at, size);
    }

    // The commits that the last frame wrote.
    written(count) {
        if (count === 0) return [];
        const { buffer } = this.calls.memory;
        if (this.seen?.buffer !== buffer) this.seen = new DataView(buffer); // it has grown
        const steps = [];
        for (let at = this.commits; steps.length < count; at += ANSWER) {
            steps.push(stepOfHalves(this.seen.getUint32(at), this.seen.getUint32(at + ANSWER / 2)));
        }
        return steps;
    }

    // A table's place, for one more round. The same bytes have one place.
    lend(bytes) {
        const at = this.take(this.spare.tables, TABLE);
        this.bytes(at, TABLE).set(bytes.subarray(0, TABLE));
        const found = [...this.tables].find((table) => this.same(table.at, at));
        if (found === undefined) {
            const table = { at, rounds: 1 };
            this.tables.add(table);
            return table;
        }
        this.spare.tables.push(at);
        found.rounds++;
        return found;
    }

    same(one, other) {
        const words = new Int32Array(this.calls.memory.buffer);
        for (let k = 0; k < TABLE; k += 4) if (words[(one + k) / 4] !== words[(other + k) / 4]) return false;
        return true;
    }

    giveBack(table) {
        table.rounds--;
        if (table.rounds > 0) return;
        this.tables.delete(table);
        this.spare.tables.push(table.at);
    }

    // The last call was cut short, JavaScript's own stack having run out. The engine's stack is not as it was, so that
    // it is entered afresh, with all that stays; a round that the call was writing is none any more.
    recover() {
        release(this.busy, "lost, JavaScript's stack having run out in a call");
        const { buffer } = this.calls.memory;
        const calls = new WebAssembly.Instance(this.module).exports;
        calls.memory.grow((buffer.byteLength - calls.memory.buffer.byteLength) / PAGE);
        new Uint8Array(calls.memory.buffer, this.commits).set(new Uint8Array(buffer, this.commits));
        this.calls = calls;
        this.busy = NOBODY;
    }
}

// What a Round keeps: { arena, table, at, why }; without a place, at 0, it cannot be used any more, and `why` says why.
// The place goes first, so that it is never given back twice.
function release(kept, why) {
    const { arena, table, at } = kept;
    if (at === 0) return;
    kept.at = 0;
    kept.why = why;
    arena.spare.rounds.push(at);
    arena.giveBack(table);
}

const DROPPED = new FinalizationRegistry((kept) => release(kept, "dropped"));

function inPlace(kept, call) {
    if (kept.arena.busy !== NOBODY) kept.arena.recover();
    if (kept.at === 0) throw new Error(`${call}: the round was ${kept.why}`);
    return kept;
}

// A table's bytes in the arena, for one more round.
function lentTable(arena, call, bytes) {
    checked(call, TABLE_ARGUMENT, bytes);
    if (bytes.length < TABLE) throw new Refusal(call, FOREIGN);
    return arena.lend(bytes);
}

// What a delivery's answer of two halves tells, and the commits that it wrote: { steps, commits }.
function delivered(high, low, commits) {
    const end = high >>> 24;
    if (end === DELIVERED) return { steps: low, commits };
    // a refusal; or only of bytes that no engine left, since room for a commit is always lent
    throw new Refusal("deliver", end === 0 ? low : FOREIGN);
}

// What `taken` answers: { number, inHand }.
function counted(high, low) {
    if (high === 0) throw new Refusal("taken", low);
    return { number: low, inHand: high >>> 8 };
}

// The word of the answer in WIDE: 2^32 and the word, or a refusal's number.
function wordOf(call) {
    if (HALVES[HIGH] === 0) throw new Refusal(call, HALVES[LOW]);
    return HALVES[LOW];
}

/** A round that stays in the module's memory with its table: `open` and `resume` make it. */
class Round {
    #kept;

    constructor(kept) {
        this.#kept = kept;
        DROPPED.register(this, kept, kept);
    }

    /** An event is taken in, sent by this player. */
    arrive(event, player) {
        whole("arrive", "event", event);
        whole("arrive", "player", player);
        const kept = inPlace(this.#kept, "arrive");
        const { arena, table, at } = kept;
        arena.busy = kept;
        const number = arena.calls.engine_arrive(table.at, TABLE_LENGTH, at, ROUND_LENGTH, event, player);
        arena.busy = NOBODY;
        if (number !== 0) throw new Refusal("arrive", number);
    }

    /**
     * Entry `number` of the order that all phones share is taken in under this number; with a full hand steps are made
     * until one commits: { steps, commits }, none or one of these. Refused by 43 where entries are missing, by 44 where
     * it was taken in before.
     */
    deliver(number, event, player) {
        whole("deliver", "number", number);
        whole("deliver", "event", event);
        whole("deliver", "player", player);
        const kept = inPlace(this.#kept, "deliver");
        const { arena, table, at } = kept;
        arena.busy = kept;
        WIDE[0] = arena.calls.engine_deliver(
            table.at, TABLE_LENGTH, at, ROUND_LENGTH, number, event, player, arena.commits, ROOMS[1]);
        const [high, low] = [HALVES[HIGH], HALVES[LOW]];
        const commits = arena.written(high & 0xffffff);
        arena.busy = NOBODY;
        return delivered(high, low, commits);
    }

    /** How many were taken in and how many of them are in hand: { number, inHand }. */
    taken() {
        const { arena, table, at } = inPlace(this.#kept, "taken");
        arena.busy = NO_ROUND;
        WIDE[0] = arena.calls.engine_taken(table.at, TABLE_LENGTH, at, ROUND_LENGTH);
        arena.busy = NOBODY;
        return counted(HALVES[HIGH], HALVES[LOW]);
    }

    /** Steps until nothing is left in hand: the commits, in their order. */
    runToIdle() {
        const commits = [];
        for (;;) {
            const frame = this.frame(WORD);
            commits.push(...frame.commits);
            if (frame.end === FRAME_IDLE) return commits;
            if (frame.end === FRAME_REFUSED) throw new Refusal("step", FOREIGN);
        }
    }

    /**
     * The board after exactly `number` entries, as this player sees it, null for what is hidden, and the commits on the
     * way: { board, commits }. A winner that is named by it is the same on every phone.
     */
    boardAfter(number, player) {
        whole("boardAfter", "player", player);
        const commits = this.#settle("boardAfter", number);
        const { arena, table } = inPlace(this.#kept, "boardAfter");
        WIDE[0] = arena.calls.engine_behaviour_count(table.at, TABLE_LENGTH);
        const board = Array.from({ length: wordOf("boardAfter") }, (_, b) => this.#seen(b, player));
        return { board, commits };
    }

    /** The change to another table after exactly `number` entries: the commits on the way. */
    mendAfter(number, table) {
        const commits = this.#settle("mendAfter", number);
        this.mend(table);
        return commits;
    }

    #settle(call, number) {
        whole(call, "number", number);
        const { number: taken } = this.taken();
        if (taken !== number) throw new NotThere(call, number, taken);
        return this.runToIdle();
    }

    #seen(behaviour, player) {
        try {
            return this.board(behaviour, player);
        } catch (refusal) {
            if (refusal.number === NO_RIGHT) return null;
            throw refusal;
        }
    }

    /** One step: { kind, player, event, arrival, over, answer }. */
    step() {
        const kept = inPlace(this.#kept, "step");
        const { arena, table, at } = kept;
        arena.busy = kept;
        WIDE[0] = arena.calls.engine_step(table.at, TABLE_LENGTH, at, ROUND_LENGTH);
        const did = stepOfHalves(HALVES[HIGH], HALVES[LOW]);
        arena.busy = NOBODY; // not before: a step that was made is not told of by an error alone
        if (did.kind === STEP_REFUSED) throw new Refusal("step", STEP_REFUSED);
        return did;
    }

    /** At most so many steps, and at most `most` commits: { steps, commits, end }, as the engine's `frame`. */
    frame(steps, most = HAND) {
        const room = ROOMS[roomFor(steps, most)];
        const kept = inPlace(this.#kept, "frame");
        const { arena, table, at } = kept;
        arena.busy = kept;
        WIDE[0] = arena.calls.engine_frame(table.at, TABLE_LENGTH, at, ROUND_LENGTH, steps, arena.commits, room);
        const high = HALVES[HIGH];
        const did = { steps: HALVES[LOW], commits: arena.written(high & 0xffffff), end: high >>> 24 };
        arena.busy = NOBODY;
        return did;
    }

    /** A behaviour's value, as this player may see it. */
    board(behaviour, player) {
        whole("board", "behaviour", behaviour);
        whole("board", "player", player);
        const { arena, table, at } = inPlace(this.#kept, "board");
        arena.busy = NO_ROUND;
        WIDE[0] = arena.calls.engine_board(table.at, TABLE_LENGTH, at, ROUND_LENGTH, behaviour, player);
        arena.busy = NOBODY;
        return wordOf("board") | 0;
    }

    /** The value that a behaviour would show after this event of this player had been run to idle. */
    preview(event, behaviour, player) {
        whole("preview", "event", event);
        whole("preview", "behaviour", behaviour);
        whole("preview", "player", player);
        const { arena, table, at } = inPlace(this.#kept, "preview");
        arena.busy = NO_ROUND;
        WIDE[0] = arena.calls.engine_preview(table.at, TABLE_LENGTH, at, ROUND_LENGTH, event, behaviour, player);
        arena.busy = NOBODY;
        return wordOf("preview") | 0;
    }

    /** Steps to idle if no arrival is taken in meanwhile: exact with nothing running, else a bound. */
    forecast() {
        const { arena, table, at } = inPlace(this.#kept, "forecast");
        arena.busy = NO_ROUND;
        WIDE[0] = arena.calls.engine_forecast(table.at, TABLE_LENGTH, at, ROUND_LENGTH);
        arena.busy = NOBODY;
        return wordOf("forecast");
    }

    /** The round goes on under another table. */
    mend(table) {
        const kept = inPlace(this.#kept, "mend");
        const { arena, at, table: old } = kept;
        const next = lentTable(arena, "mend", table);
        arena.busy = kept;
        const number = arena.calls.engine_mend(old.at, TABLE_LENGTH, next.at, TABLE_LENGTH, at, ROUND_LENGTH);
        if (number === 0) kept.table = next;
        arena.giveBack(number === 0 ? old : next);
        arena.busy = NOBODY;
        if (number !== 0) throw new Refusal("mend", number);
    }

    /** Its bytes, a copy: to save it, to send it, or for the engine's own calls. */
    bytes() {
        const { arena, at } = inPlace(this.#kept, "bytes");
        return arena.bytes(at, ROUND).slice();
    }

    /** Gives its memory back: it cannot be used any more. One that is dropped without it is freed some time later. */
    free() {
        release(this.#kept, "freed");
        DROPPED.unregister(this.#kept);
    }
}

const aligned = (length) => (length + 7) & ~7;

// Buffers go to memory one behind the other; the words are what the call is made with, a buffer's place and length.
function copiedIn(bytes, base, takes, given) {
    const words = [];
    let at = base;
    for (let k = 0; k < takes.length; k++) {
        if (takes[k].buffer) {
            bytes.set(given[k], at);
            words.push(at, BigInt(given[k].length));
            at += aligned(given[k].length);
        } else words.push(takes[k].kind === "q" ? BigInt.asUintN(64, given[k]) : given[k]);
    }
    return words;
}

function copiedOut(bytes, base, takes, given) {
    let at = base;
    for (let k = 0; k < takes.length; k++) {
        if (takes[k].kind === "w") given[k].set(bytes.subarray(at, at + given[k].length));
        if (takes[k].buffer) at += aligned(given[k].length);
    }
}

class Engine {
    #module;
    #arena; // made when the first round is opened
    #calls;
    #base;
    #cut; // a call is under way, or was cut short

    constructor(module, instance) {
        this.#module = module;
        this.#enter(instance);
    }

    #enter({ exports }) {
        const { byteLength } = exports.memory.buffer;
        this.#base = byteLength; // what the engine has of its own ends here
        this.#calls = exports;
        this.#cut = false;
    }

    /**
     * A call as C makes it, by its name without the prefix: a Uint8Array for each buffer, a number for each number. The
     * answer is a BigInt. Buffers are copied in, and those that are written are copied out again.
     */
    call(name, ...given) {
        const takes = TAKES.get(name);
        if (takes === undefined) throw new TypeError(`no call ${name}`);
        if (given.length !== takes.length) throw new TypeError(`${name} takes ${takes.length} arguments`);
        // No call traps; but where JavaScript's own stack ran out in the last, the engine is entered afresh, having no
        // state.
        if (this.#cut) this.#enter(new WebAssembly.Instance(this.#module));
        let end = this.#base;
        for (let k = 0; k < takes.length; k++) {
            checked(name, takes[k], given[k]);
            if (takes[k].buffer) end += aligned(given[k].length);
        }
        const { memory } = this.#calls;
        const lacking = end - memory.buffer.byteLength;
        if (lacking > 0) memory.grow(Math.ceil(lacking / PAGE));
        const bytes = new Uint8Array(memory.buffer);
        const words = copiedIn(bytes, this.#base, takes, given);
        this.#cut = true;
        const answer = this.#calls[`engine_${name}`](...words);
        this.#cut = false;
        copiedOut(bytes, this.#base, takes, given);
        return typeof answer === "bigint" ? BigInt.asUintN(64, answer) : BigInt(answer >>> 0);
    }

    // an answer of 2^32 and a word, or of a refusal's number
    #worth(name, ...given) {
        const answer = this.call(name, ...given);
        if (answer >> 32n === 0n) throw new Refusal(name, Number(answer));
        return Number(answer & 0xffffffffn);
    }

    #done(name, ...given) {
        const number = Number(this.call(name, ...given));
        if (number !== 0) throw new Refusal(name, number);
    }

    /** The table of a sheet with its parameters. */
    compile(sheet, params = NONE) {
        const table = new Uint8Array(TABLE);
        this.#done("compile", sheet, params, table);
        return table;
    }

    /** Why a sheet is turned down: compile's number or 0; with 12 the event, NO_EVENT for none, and a short circle. */
    circle(sheet, params = NONE) {
        const list = new Uint8Array(LIST);
        const answer = this.call("circle", sheet, params, list);
        const number = Number(answer & 0xffn);
        if (number !== 12) return { number };
        const event = Number((answer >> 8n) & 0xffn);
        return { number, event, circle: [...list.subarray(0, Number(answer >> 16n))] };
    }

    /** Whether phones may end apart: compile's number or 0; with 29, a warning, two events and what they share. */
    agree(sheet, params = NONE) {
        return agreement(this.call("agree", sheet, params));
    }

    /** Whether they may on one behaviour: compile's number, 18 or 0; with 29 two events and where they meet. */
    agreeFor(sheet, params = NONE, behaviour) {
        return agreement(this.call("agree_for", sheet, params, behaviour));
    }

    /**
     * What two events share: { number }, compile's, 15 or 0 where they are independent; else also the least behaviour
     * at which they meet, or that they share, and who writes and reads it: { number, behaviour, writes, reads, bothAdd,
     * meet }.
     */
    pair(sheet, params = NONE, first, second) {
        const answer = this.call("pair", sheet, params, first, second);
        if (answer >> 32n === 0n) return { number: Number(answer) };
        const bits = Number((answer >> 8n) & 0xffn);
        const both = (bit) => [(bits & bit) !== 0, (bits & (2 * bit)) !== 0];
        const behaviour = Number(answer & 0xffn);
        const [bothAdd, meet] = both(16);
        return { number: 0, behaviour, writes: both(1), reads: both(4), bothAdd, meet };
    }

    /** Whether a player can learn of what is hidden: compile's number, 24 or 0; with 30 one seen and one hidden. */
    leak(sheet, params = NONE, player) {
        const [number, seen, hidden] = bytesOf(this.call("leak", sheet, params, player));
        return number === 30 ? { number, seen, hidden } : { number };
    }

    /** { interface, layout } of the module. */
    version() {
        const both = Number(this.call("version"));
        return { interface: both >>> 16, layout: both & 0xffff };
    }

    eventCount(table) {
        return this.#worth("event_count", table);
    }

    behaviourCount(table) {
        return this.#worth("behaviour_count", table);
    }

    eventRank(table, event) {
        return this.#worth("event_rank", table, event);
    }

    /** A fresh Round on this table, both of which stay in the module's memory. */
    open(table) {
        return this.#opened("open", table, (arena, under, at) =>
            arena.calls.engine_start(under, TABLE_LENGTH, at, ROUND_LENGTH));
    }

    /** A Round that goes on from the bytes of a saved one. */
    resume(table, round) {
        checked("resume", ROUND_ARGUMENT, round);
        if (round.length < ROUND) throw new Refusal("resume", FOREIGN);
        return this.#opened("resume", table, (arena, under, at) => {
            arena.bytes(at, ROUND).set(round.subarray(0, ROUND));
            WIDE[0] = arena.calls.engine_forecast(under, TABLE_LENGTH, at, ROUND_LENGTH);
            return HALVES[HIGH] === 0 ? HALVES[LOW] : 0;
        });
    }

    // A Round on a place of its own, whose bytes `made` writes: it answers 0 or a refusal's number.
    #opened(call, table, made) {
        const arena = (this.#arena ??= new Arena(this.#module));
        if (arena.busy !== NOBODY) arena.recover();
        arena.reserve(TABLE + ROUND); // so that neither place is taken where there is no memory for both
        const under = lentTable(arena, call, table);
        const kept = { arena, table: under, at: arena.take(arena.spare.rounds, ROUND), why: "" };
        arena.busy = kept;
        const number = made(arena, under.at, kept.at);
        arena.busy = NOBODY;
        if (number === 0) return new Round(kept);
        release(kept, "refused");
        throw new Refusal(call, number);
    }

    /** A fresh round. */
    start(table) {
        const round = new Uint8Array(ROUND);
        this.#done("start", table, round);
        return round;
    }

    /** An event is taken in, sent by this player. */
    arrive(table, round, event, player) {
        this.#done("arrive", table, round, event, player);
    }

    /** Entry `number` of the order that all phones share, as a Round's `deliver`: { steps, commits }. */
    deliver(table, round, number, event, player) {
        const room = new Uint8Array(ANSWER);
        const answer = this.call("deliver", table, round, number, event, player, room);
        const count = Number((answer >> 32n) & 0xffffffn);
        return delivered(Number(answer >> 32n), Number(answer & 0xffffffffn), answers(room, count).map(stepOf));
    }

    /** How many were taken in and how many of them are in hand: { number, inHand }. */
    taken(table, round) {
        const answer = this.call("taken", table, round);
        return counted(Number(answer >> 32n), Number(answer & 0xffffffffn));
    }

    /** One step: { kind, player, event, arrival, over, answer }. */
    step(table, round) {
        const did = stepOf(this.call("step", table, round));
        if (did.kind === STEP_REFUSED) throw new Refusal("step", STEP_REFUSED);
        return did;
    }

    /**
     * At most so many steps, and at most `most` commits: { steps, commits, end }, a commit being as step gives it. Also
     * where a step is refused, which `end` tells: the steps before it were made.
     */
    frame(table, round, steps, most = HAND) {
        const room = new Uint8Array(8 * roomFor(steps, most));
        const answer = this.call("frame", table, round, steps, room);
        const commits = answers(room, Number((answer >> 32n) & 0xffffffn)).map(stepOf);
        return { steps: Number(answer & 0xffffffffn), commits, end: Number(answer >> 56n) };
    }

    /** A step as the other players are told of it: without the mark that the event ran over. */
    told(step) {
        if (step === undefined) throw new TypeError("told: step is missing");
        return stepOf(this.call("told", packed(step)));
    }

    /** A behaviour's value, as this player may see it. */
    board(table, round, behaviour, player) {
        return this.#worth("board", table, round, behaviour, player) | 0;
    }

    /** Steps to idle if no arrival is taken in meanwhile: exact with nothing running, else a bound. */
    forecast(table, round) {
        return this.#worth("forecast", table, round);
    }

    /** The value that a behaviour would show after this event of this player had been run to idle. */
    preview(table, round, event, behaviour, player) {
        return this.#worth("preview", table, round, event, behaviour, player) | 0;
    }

    /** The round goes on under another table: lend that one from now on. */
    mend(old, table, round) {
        this.#done("mend", old, table, round);
    }

    /** The expression field of a formula's text. */
    formula(text) {
        const field = new Uint8Array(FIELD);
        return field.slice(0, this.#worth("formula", bytesOfText("formula", text), field));
    }

    /** The sheet that a text means; a text that is turned down throws a Fault. */
    assemble(text) {
        const sheet = new Uint8Array(SHEET);
        const answer = this.call("assemble", bytesOfText("assemble", text), sheet);
        if (answer >> 56n !== 0n) throw new Fault(answer);
        return sheet.slice(0, Number(answer & 0xffffffffn));
    }

    /** A text that assemble turns into the very sheet again. */
    describe(sheet) {
        const text = new Uint8Array(SHEET_TEXT);
        return new TextDecoder().decode(text.subarray(0, this.#worth("describe", sheet, text)));
    }

    /** One sheet from two. */
    join(first, second, params = NONE) {
        const both = new Uint8Array(SHEET);
        return both.slice(0, this.#worth("join", first, second, params, both));
    }

    /** Makes recorded calls one after the other: their answers, as BigInts. */
    replay(table, round, calls) {
        const room = new Uint8Array(8 * Math.floor((calls?.length ?? 0) / 6));
        return answers(room, Number(this.call("replay", table, round, calls, room)));
    }
}

function agreement(answer) {
    const [number, first, second, behaviour] = bytesOf(answer);
    return number === 29 ? { number, events: [first, second], behaviour } : { number };
}

function bytesOf(answer) {
    return [0n, 8n, 16n, 24n].map((n) => Number((answer >> n) & 0xffn));
}

// the first answers in a buffer, eight bytes each
function answers(room, count) {
    const view = new DataView(room.buffer);
    return Array.from({ length: count }, (_, k) => view.getBigUint64(8 * k));
}

/** Whether two tables are the same program: a table's bytes depend on sheet and parameters alone. */
export function sameTable(one, other) {
    for (const [name, table] of Object.entries({ one, other })) {
        checked("sameTable", { kind: "r", name, buffer: true }, table);
        if (table.length < TABLE) throw new RangeError(`sameTable: ${name} has under ${TABLE} bytes`);
    }
    for (let k = 0; k < TABLE; k++) if (one[k] !== other[k]) return false;
    return true;
}

/** Eight parameters as their 32 bytes, from at most eight whole numbers of 32 bits with a sign; the others are 0. */
export function parameters(values) {
    const given = [...values];
    if (given.length > PARAMS / 4) throw new RangeError(`parameters: ${given.length} values, over ${PARAMS / 4}`);
    const view = new DataView(new ArrayBuffer(PARAMS));
    given.forEach((value, k) => {
        // with 2^31 added it is a number of 32 bits
        within("parameters", `value ${k}`, typeof value === "number" ? value + 0x80000000 : value, WORD);
        view.setInt32(4 * k, value);
    });
    return new Uint8Array(view.buffer);
}

/**
 * A recorded call's six bytes: its kind, the event or behaviour, and the player; a step has neither. A player over 7 is
 * refused by replay as it was live, however large.
 */
export function recorded(kind, number, player) {
    within("recorded", "kind", kind, CALL_BOARD);
    const [n, p] = kind === CALL_STEP ? [number ?? 0, player ?? HOST] : [number, player];
    whole("recorded", "number", n);
    const held = Math.min(whole("recorded", "player", p), CALL_PLAYER);
    return [kind, n >>> 24, (n >>> 16) & 255, (n >>> 8) & 255, n & 255, held];
}
