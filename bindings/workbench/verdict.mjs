// What the proved engine states of an accepted sheet: its sizes, whether two phones agree, and what may leak to whom.
import { answered } from "./stage.mjs";

const APART = 29;
const LEAK = 30;
const NO_RIGHT = 25;
const PLAYERS = [1, 2, 3, 4, 5, 6, 7];

const numbers = (count) => Array.from({ length: count }, (_, k) => k);

/**
 * { sizes, agrees, pairs, groups, equal, players } of a sheet; `equal` tells of each behaviour whether phones agree on
 * it, and a group has events that must have one rank, or nothing in common.
 */
export function verdict(engine, sheet) {
    const lent = sheet.lent();
    const table = sheet.compile();
    return {
        sizes: sizes(engine, sheet, table),
        agrees: engine.agree(sheet.sheet, lent).number !== APART,
        pairs: pairs(engine, sheet, table),
        groups: groups(engine, sheet, table),
        equal: numbers(sheet.count).map((b) => engine.agreeFor(sheet.sheet, lent, b).number !== APART),
        players: players(engine, sheet, table),
    };
}

function sizes(engine, sheet, table) {
    const counts = instructions(engine, sheet, table);
    const longest = sheet.events[counts.indexOf(Math.max(...counts))];
    return [
        { what: "bytes", has: sheet.sheet.length, most: 8192 },
        { what: "parameters", has: sheet.params.length, most: 8 },
        { what: "events", has: sheet.events.length, most: 32 },
        { what: "behaviours", has: sheet.count, most: 64 },
        { what: "instructions", has: counts.reduce((a, b) => a + b, 0), most: 4096, longest },
    ];
}

/** Of each event: the steps until idle, exact while nothing runs, but the one that starts it. */
function instructions(engine, sheet, table) {
    return numbers(sheet.events.length).map((event) => {
        const round = engine.open(table);
        round.arrive(event, 0);
        const steps = round.forecast();
        round.free();
        return steps - 1;
    });
}

/** Every two events that are not independent: { events, ranks, behaviour, writes, reads, meet }. */
function dependent(engine, sheet, table) {
    const lent = sheet.lent();
    const ranks = numbers(sheet.events.length).map((event) => engine.eventRank(table, event));
    return ranks.flatMap((_, first) => numbers(ranks.length).slice(first + 1).flatMap((second) => {
        const shared = engine.pair(sheet.sheet, lent, first, second);
        const found = { ...shared, events: [first, second], ranks: [ranks[first], ranks[second]] };
        return shared.behaviour === undefined ? [] : [found];
    }));
}

/** Those of unequal rank. */
export function pairs(engine, sheet, table) {
    return dependent(engine, sheet, table).filter(({ ranks }) => ranks[0] !== ranks[1]);
}

/** Events that meet, directly or by others, where their ranks are not all one. */
function groups(engine, sheet, table) {
    const of = numbers(sheet.events.length);
    const meeting = dependent(engine, sheet, table).filter(({ meet }) => meet);
    for (const { events: [first, second] } of meeting) {
        const [low, high] = [of[first], of[second]].sort((a, b) => a - b);
        of.forEach((group, event) => (of[event] = group === high ? low : group));
    }
    const rank = (event) => engine.eventRank(table, event);
    const all = numbers(of.length).map((group) => numbers(of.length).filter((event) => of[event] === group));
    return all.filter((group) => group.some((event) => rank(event) !== rank(group[0])));
}

/** Players for whom the same is true, together: { who, hidden, leak }. */
function players(engine, sheet, table) {
    const round = engine.open(table);
    const groups = [];
    for (const player of PLAYERS) {
        const hides = (b) => answered(() => round.board(b, player)).refused === NO_RIGHT;
        const hidden = sheet.everything().filter(({ members }) => members.every(hides)).map(({ label }) => label);
        const { number, seen, hidden: from } = engine.leak(sheet.sheet, sheet.lent(), player);
        const leak = number === LEAK ? [sheet.behaviour(seen), sheet.behaviour(from)] : [];
        const key = JSON.stringify([hidden, leak]);
        const same = groups.find((group) => group.key === key);
        if (same === undefined) groups.push({ who: [player], hidden, leak, key });
        else same.who.push(player);
    }
    round.free();
    return groups;
}
