// The story of the final, which plays itself once: the same moves in the same order on both phones, and two winners;
// and the same on the mended sheet, with one.
import { one, still, wait } from "./dom.mjs";
import { STORY } from "./library.mjs";

const MOVES = ["send hit from 1", "send timeup"];
const BEAT = 1000; // in thousandths of a second
const TICK = 110;
const STEPS = 3; // made in a tick

const TOLD = [
    "Now hit and time-up have one rank. The moves are the same, in the same order, on both phones.",
    "Phone A does each move as it comes; phone B is late again, but takes the moves in the order in which they came.",
    "Both name player 1: on this sheet the engine is proved to give both phones one board, however they cut steps.",
];

export class Story {
    constructor(bench) {
        this.bench = bench;
        this.turn = 0; // of the story that plays; another number ends it
        this.sheet = STORY;
        this.sentences = [...one("#sentences").children];
        this.told = this.sentences.map((sentence) => sentence.textContent);
    }

    /** Ends the story where it is. */
    stop() {
        this.turn++;
        this.at(undefined);
        this.bench.phones.forEach((phone) => phone.halt());
    }

    at(number) {
        this.sentences.forEach((sentence, k) => sentence.classList.toggle("now", k === number));
    }

    async tell(sheet) {
        const turn = ++this.turn;
        const { bench } = this;
        this.sheet = sheet;
        one("#story").hidden = false;
        one("#story-title").textContent = sheet === STORY ? "The final, and two winners" : "The final, mended";
        one("#mend").textContent = sheet === STORY ? "Now with one rank" : "Back to two ranks";
        const told = sheet === STORY ? this.told : TOLD;
        this.sentences.forEach((sentence, k) => (sentence.textContent = told[k]));
        bench.useSheet(sheet, bench.library.text(sheet), [[], []]);
        for (const act of this.acts()) {
            if (turn !== this.turn) return;
            await act();
        }
        if (turn === this.turn) this.at(2);
    }

    // What happens, one after the other.
    acts() {
        const [first, second] = this.bench.phones;
        const turn = this.turn;
        const live = () => turn === this.turn;
        const send = (move, k) => async () => {
            if (k === 0) this.at(0);
            this.bench.phones.forEach((phone) => phone.add(move));
            this.bench.changed();
            await pause(BEAT);
        };
        const run = (phone) => async () => {
            this.at(1);
            while (live() && !phone.advance(STEPS)) {
                this.bench.changed();
                await pause(TICK);
            }
            if (!live()) return;
            this.bench.changed();
            await pause(BEAT / 2);
        };
        return [...MOVES.flatMap((move, k) => [send(move, k), run(first)]), run(second)];
    }
}

// None where the reader wants little motion.
function pause(time) {
    return still() ? Promise.resolve() : wait(time);
}
