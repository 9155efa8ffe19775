// Two phones that part: a search over the boards that a round can reach, all of it on the proved engine. It is the
// search of `setter differ` (bindings/rust/setter/src/apart.rs states how it goes and why), and finds the same.
import { pairs } from "./verdict.mjs";

const ROW = 200; // so often in a row one event is followed before others
const BUSY = 30; // thousandths of a second between two looks at the page

/**
 * { found, looked, all }: two lists, if some are found, as { before, slow, urgent, boards }; how many boards were
 * looked at, and whether there are no others. `winners` are behaviours of which one shall differ, if that can be had;
 * `pause` is awaited now and then.
 */
export async function partingPair(engine, sheet, { boards: most, winners, pause }) {
    const search = new Search(engine, sheet, { most, winners });
    let time = performance.now();
    while (!search.over()) {
        search.look();
        if (performance.now() - time < BUSY) continue;
        await pause(search.looked);
        time = performance.now();
    }
    return search.told();
}

class Search {
    constructor(engine, sheet, { most, winners }) {
        Object.assign(this, { engine, most, winners, table: sheet.compile(), count: sheet.count });
        this.events = sheet.events.map((_, event) => event);
        const meeting = pairs(engine, sheet, this.table).filter(({ meet }) => meet);
        this.pairs = meeting.map(({ events: [a, b], ranks }) => (ranks[0] < ranks[1] ? [a, b] : [b, a]));
        Object.assign(this, { known: new Set(), found: [], wide: [], long: [], more: false });
        Object.assign(this, { looked: 0, first: undefined, won: false });
        this.add(this.commits([]), 0, undefined);
    }

    // ---- rounds

    /** The bytes and the values of a round after these events, each run to idle, from some bytes or from the start. */
    commits(events, bytes) {
        const round = bytes === undefined ? this.engine.open(this.table) : this.engine.resume(this.table, bytes);
        for (const event of events) {
            round.arrive(event, 0);
            round.runToIdle();
        }
        const board = this.board(round);
        const after = { bytes: round.bytes(), board };
        round.free();
        return after;
    }

    board(round) {
        return Array.from({ length: this.count }, (_, b) => round.board(b, 0));
    }

    /** The boards of both phones at the end, played from the start. */
    played({ before, slow, urgent }) {
        const { bytes } = this.commits(before);
        const late = this.engine.resume(this.table, bytes);
        late.arrive(slow, 0);
        late.arrive(urgent, 0);
        late.runToIdle();
        const boards = [this.commits([slow, urgent], bytes).board, this.board(late)];
        late.free();
        return boards;
    }

    // ---- boards

    // A board that an event led to, if it is new; one that would come too late to be looked at is not kept.
    add({ bytes, board }, from, event) {
        const key = board.join();
        if (this.known.has(key)) return;
        const last = this.found[from];
        const row = (last !== undefined && last.event === event ? last.row : 0) + 1;
        if (row === 1 && this.wide.length >= this.most - this.looked) {
            this.more = true;
            return;
        }
        this.known.add(key);
        if (row === 1) this.wide.push(this.found.length);
        else if (row >= 3 && row <= ROW) this.long.unshift(this.found.length);
        else this.long.push(this.found.length);
        this.found.push({ bytes, from, event, row });
    }

    over() {
        return this.won || this.looked >= this.most || this.wide.length + this.long.length === 0;
    }

    next() {
        const turn = this.looked % 2 === 0 ? this.wide : this.long;
        return turn.shift() ?? this.wide.shift() ?? this.long.shift();
    }

    /** The events that led to a board. */
    way(board) {
        const way = [];
        for (let { event, from } = this.found[board]; event !== undefined; { event, from } = this.found[from]) {
            way.unshift(event);
        }
        return way;
    }

    /** One board: what follows it is found, and its pairs are asked. */
    look() {
        const at = this.next();
        this.looked++;
        const { bytes } = this.found[at];
        this.found[at].bytes = undefined;
        const next = this.events.map((event) => this.commits([event], bytes));
        next.forEach((after, event) => this.add(after, at, event));
        const finds = this.finds(next);
        const find = finds.find((found) => this.wins(found)) ?? finds[0];
        if (find === undefined) return;
        this.won = this.wins(find);
        if (this.won || this.first === undefined) this.first = { ...find, before: this.way(at) };
    }

    /** The pairs whose two orders lead to two boards. */
    finds(next) {
        const found = [];
        for (const [slow, urgent] of this.pairs) {
            const boards = [[slow, urgent], [urgent, slow]].map(([a, b]) => this.commits([b], next[a].bytes).board);
            if (String(boards[0]) === String(boards[1])) continue;
            found.push({ slow, urgent, boards });
            if (this.wins(found.at(-1))) break;
        }
        return found;
    }

    /** Whether a winner differs; where none is named, all do. */
    wins({ boards: [one, other] }) {
        return this.winners.length === 0 || this.winners.some((b) => one[b] !== other[b]);
    }

    // ---- what is told

    told() {
        const all = !this.won && !this.more && this.wide.length + this.long.length === 0;
        return { found: this.first && this.shortest(this.first), looked: this.looked, all };
    }

    /** The same with fewer events before. */
    shortest(first) {
        let found = first;
        const won = this.winners.length > 0 && this.wins(first);
        for (let block = found.before.length; block > 0; block = Math.floor(block / 2)) {
            for (let k = 0; k + block <= found.before.length; ) {
                const less = { ...found, before: found.before.toSpliced(k, block) };
                less.boards = this.played(less);
                if (String(less.boards[0]) !== String(less.boards[1]) && (!won || this.wins(less))) found = less;
                else k += block;
            }
        }
        const boards = this.played(found);
        return String(boards[0]) === String(boards[1]) ? undefined : { ...found, boards };
    }
}

/** Who sends an event: the least player that may where not all may, else the host. */
export function senderOf(engine, table, event) {
    const may = (player) => {
        const round = engine.open(table);
        try {
            round.arrive(event, player);
            return true;
        } catch (error) {
            if (error.name !== "Refusal") throw error;
            return false;
        } finally {
            round.free();
        }
    };
    const able = [1, 2, 3, 4, 5, 6, 7].filter(may);
    return able.length === 7 ? 0 : able[0] ?? 0;
}

/** What each phone does, as lines of a script: the same events in a row by `repeat`, and what the board must show. */
export function partingScripts(engine, sheet, { before, slow, urgent, boards }) {
    const table = sheet.compile();
    const sent = (event) => {
        const sender = senderOf(engine, table, event);
        return `send ${sheet.event(event)}${sender === 0 ? "" : ` from ${sender}`}`;
    };
    const differ = boards[0].flatMap((value, b) => (value === boards[1][b] ? [] : [b]));
    return [[slow, urgent], []].map((rest, phone) => {
        const runs = rowsOf([...before, ...rest]).flatMap(([event, row]) =>
            (row > 1 ? [`repeat ${row} ${sent(event)}, run`] : [sent(event), "run"]));
        const both = phone === 1 ? [sent(slow), sent(urgent), "run"] : [];
        const shown = differ.map((b) => ` ${sheet.behaviour(b)} ${boards[phone][b]}`).join("");
        return [...runs, ...both, "board", `expect${shown}`];
    });
}

/** Events in a row with how often each comes: [[event, times]]. */
function rowsOf(events) {
    const rows = [];
    for (const event of events) {
        if (rows.at(-1)?.[0] === event) rows.at(-1)[1]++;
        else rows.push([event, 1]);
    }
    return rows;
}
