// A match of two players, played in frames of a few steps: the other phone's table, entries of an order, rights, a look
// ahead, a bonus sheet that joins in mid-round, a save and a load, a mended sheet, a crowd of entries at once, a board at
// a place of the order, and an audit. Prints what happens: main.mjs SAVE ROUNDS SHEETS.
import { readFileSync, writeFileSync } from "node:fs";
import { join } from "node:path";
import { fileURLToPath } from "node:url";
import { load, refusalWord, Refusal } from "poqashem-engine";
import * as day from "./day.mjs"; // setter names day.sheet --as typescript
import { Match } from "./match.mjs";

const BUDGET = 10; // steps of a frame
const [save, rounds, folder] = process.argv.slice(2);
const engine = await load(readFileSync(fileURLToPath(import.meta.resolve("poqashem-engine/engine.wasm"))));
const sheet = (name) => engine.assemble(readFileSync(join(folder, `${name}.sheet`)));
const [TURN, BONUS, PARAMS] = [day.EVENT_turn, day.EVENT_bonus, day.PARAMS];
const print = (line) => process.stdout.write(`${line}\n`);

// The next entry of the order: an app gets event, player and number from whoever makes the order.
let entry = 0;

// Who sent it is kept with an arrival, so a commit can be shown as the player's. Only the host is told that it ran
// over: to the other phones goes engine.told(step).
function committed({ arrival, event, player, over }) {
    print(`    commit of arrival ${arrival}: event ${event} of player ${player}${over ? ", which ran over" : ""}`);
}

// The word of a call that may be refused. What the sheet refuses takes no number.
function word(call) {
    try {
        call();
        return "accepted";
    } catch (e) {
        if (!(e instanceof Refusal)) throw e;
        return e.word;
    }
}

function deliver(match, event, player) {
    match.deliver(entry, event, player).forEach(committed);
    entry++;
}

function send(match, event, player) {
    print(`player ${player} sends event ${event}: ${word(() => deliver(match, event, player))}`);
}

// Frames until nothing is left to do.
function playOut(match) {
    let [frames, count, idle] = [0, 0, false];
    while (!idle) {
        const did = match.frame(BUDGET);
        did.commits.forEach(committed);
        [frames, count, idle] = [frames + 1, count + did.commits.length, did.idle];
    }
    print(`    idle after ${frames} frames, ${count} commits`);
}

// Each player's screen: what it may not see is left out.
function show(match) {
    for (const player of [1, 2]) {
        const length = engine.behaviourCount(match.table());
        const seen = Array.from({ length }, (_, b) => [b, match.board(b, player)]);
        const shown = seen.filter(([, got]) => got.refusal !== 25).map(([b, { value, refusal }]) =>
            refusal ? ` b${b}: ${refusalWord(refusal)}` : ` b${b} = ${value}`);
        print(`    player ${player} sees${shown.join("")}`);
    }
}

// What a move would lead to, shown while the pointer rests on it.
function hover(match, event, behaviour, player) {
    let value;
    const refused = word(() => (value = match.round.preview(event, behaviour, player)));
    if (refused === "accepted") print(`player ${player} tries event ${event}: b${behaviour} would be ${value}`);
    else print(`player ${player} may not try event ${event} on b${behaviour}: ${refused}`);
}

// Before a round: the other phone opens the match with the sheet that it has got, and sends its greeting; ours compares.
function compare(match, got) {
    print(`the other phone's greeting: ${match.meets(new Match(engine, got, PARAMS).greeting())}`);
}

// Before a sheet is played: whether the other phone, which has got this sheet or another, has the same program, whether
// the phones will agree, and whether what player 2 sees depends on what it may not see.
function judge(match, bytes, other) {
    const table = match.table();
    const events = engine.eventCount(table);
    const ranks = Array.from({ length: events }, (_, event) => engine.eventRank(table, event));
    const version = engine.version();
    print(`interface ${version.interface}, layout ${version.layout}; ${events} events of rank ${ranks.join(" ")}`);
    compare(match, bytes);
    compare(match, other);
    const { number, events: both, behaviour } = engine.agree(bytes, PARAMS);
    if (number === 29) {
        print(`phones may disagree: events ${both.join(" and ")} differ in rank and share b${behaviour}`);
    }
    if (engine.leak(bytes, PARAMS, 2).number === 0) {
        print("no behaviour that player 2 sees depends on one that is hidden from it");
    }
}

// Saved while an event runs, closed, and gone on with.
function saveAndLoad(match) {
    match.frame(3).commits.forEach(committed);
    writeFileSync(save, match.save());
    const again = Match.load(engine, readFileSync(save, "utf8"));
    print("saved in mid-event, and loaded");
    playOut(again);
    return again;
}

// So many entries at once, more than the hand has places for: none is refused. One that comes twice is.
function crowd(match, count) {
    for (let k = 0; k < count; k++) deliver(match, TURN, 2);
    const { number, inHand } = match.round.taken();
    print(`    ${number} taken in, ${inHand} of them in hand`);
    print(`the last entry once more: ${word(() => match.deliver(entry - 1, TURN, 2))}`);
}

// The board after all entries so far: a winner that is read from it is the same on every phone.
function settle(match, player) {
    const { board, commits } = match.boardAfter(entry, player);
    const shown = board.map((value, b) => (value === null ? "" : ` b${b} = ${value}`)).join("");
    print(`    ${commits.length} commits later, the board after ${entry} entries: player ${player} sees${shown}`);
}

// A change to another sheet after all entries so far.
function mend(match, bytes, what) {
    match.mendAfter(entry, bytes, PARAMS).forEach(committed);
    print(`${what}, after ${entry} entries`);
}

const puzzle = sheet("day");
const withLeague = (name) => engine.join(puzzle, sheet(name), PARAMS);

let match = new Match(engine, puzzle, PARAMS);
judge(match, puzzle, sheet("turns"));
send(match, TURN, 2);
send(match, BONUS, 2);
send(match, BONUS, 1);
print(`    ${match.round.forecast()} steps to idle`);
playOut(match);
show(match);
hover(match, TURN, day.BEHAVIOUR_score, 2);
hover(match, TURN, day.BEHAVIOUR_secret, 2);

send(match, TURN, 1);
mend(match, withLeague("squares"), "the league's bonus joins in");
send(match, BONUS, 1);
match = saveAndLoad(match);
send(match, BONUS, 1);
playOut(match);
show(match);

mend(match, withLeague("doubles"), "the bonus is mended");
send(match, BONUS, 1);
playOut(match);
show(match);
crowd(match, 67);
settle(match, 1);
show(match);

// The record is played again; then one answer in it is changed, as a cheat would.
const verdict = (same) => (same ? "accepted" : "the record comes to something else");
print(`audit: ${verdict(match.audit())}`);
print(`audit of a changed record: ${verdict(match.audit(match.forged()))}`);
writeFileSync(rounds, match.exported("final, table 3"));
