// What two phones come to, once both are idle: one board or two.

const SAME = "The same moves in the same order";

/** { state, words }: none, busy, unlike, agree or apart. */
export function outcomeOf([a, b]) {
    if (a.stage === undefined || b.stage === undefined) return { state: "none", words: "" };
    if (!a.idle || !b.idle) return { state: "busy", words: "Not both are idle yet." };
    const [one, other] = [a, b].map((phone) => phone.moves());
    if (String(one) !== String(other)) {
        return { state: "unlike", words: "The phones have not taken in the same moves in the same order." };
    }
    if (one.length === 0) return { state: "none", words: "Both phones are idle: send a move." };
    return compared(a.stage.sheet, [a, b].map((phone) => phone.values(0).map(({ value }) => value)));
}

function compared(sheet, [one, other]) {
    const differ = one.flatMap((value, b) => (value === other[b] ? [] : [b]));
    if (differ.length === 0) return { state: "agree", words: `${SAME}, and one board.` };
    const winner = differ.find((b) => sheet.behaviour(b) === "winner");
    if (winner !== undefined) {
        const winners = `player ${one[winner]} on A, player ${other[winner]} on B`;
        return { state: "apart", words: `${SAME}, and two winners: ${winners}.` };
    }
    const [first] = differ;
    const values = `${sheet.behaviour(first)} is ${one[first]} on A and ${other[first]} on B`;
    return { state: "apart", words: `${SAME}, and two boards: ${values}.` };
}
