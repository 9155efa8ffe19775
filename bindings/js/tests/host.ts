// A host in strict TypeScript over the package; types.mjs beside it compiles and runs it. Its last function has what
// must not compile.
import { COMMITTED, HOST, CALL_ARRIVE, CALL_STEP } from "poqashem-engine";
import { Fault, load, parameters, recorded, Refusal, sameTable, stepOf } from "poqashem-engine";
import type { BoardAfter, Engine, Leak, Round, Step, StepParts } from "poqashem-engine";

const TEXT = "param worth = 0\nevent hit rank 1 from 1\nactive score = 2\n  on hit: score + worth\n";

/** What a phone sends before a round: its engine's version and its table. */
interface Greeting {
    version: string;
    table: Uint8Array;
}

function greeting(engine: Engine, worth: number): Greeting {
    const table = engine.compile(engine.assemble(TEXT), parameters([worth]));
    return { version: JSON.stringify(engine.version()), table };
}

/** Whether two phones may play a round: the same engine and the same program. */
function meets(own: Greeting, received: Greeting): boolean {
    return own.version === received.version && sameTable(own.table, received.table);
}

export async function play(wasm: Uint8Array): Promise<string> {
    const engine: Engine = await load(wasm);
    const sheet: Uint8Array = engine.assemble(TEXT);
    const leak: Leak = engine.leak(sheet, parameters([5]), 1);
    if (leak.number !== 0) throw new Error(`b${leak.seen} tells of b${leak.hidden}`);
    const own: Greeting = greeting(engine, 5);
    const other: Engine = await load(wasm);
    if (!meets(own, greeting(other, 5))) throw new Error("the other phone plays another program");
    if (meets(own, greeting(other, 6))) throw new Error("another filling is taken for the same program");
    const round: Round = engine.open(own.table);
    round.deliver(0, 0, 1);
    const after: BoardAfter = round.boardAfter(1, HOST);
    const sent: StepParts = JSON.parse(JSON.stringify(after.commits[0]));
    const told: Step = engine.told(sent);
    const points: number | null | undefined = after.board[0];
    const audited: bigint[] = replayed(engine, own.table);
    const last = audited[audited.length - 1];
    if (last === undefined || stepOf(last).kind !== COMMITTED) throw new Error("not as recorded");
    const copy: Round = engine.resume(own.table, round.bytes());
    round.free();
    if (copy.board(0, HOST) !== points) throw new Error("not as saved");
    copy.free();
    return `${points} points, event ${told.event} of player ${told.player}`;
}

function replayed(engine: Engine, table: Uint8Array): bigint[] {
    const fresh: Uint8Array = engine.start(table);
    engine.arrive(table, fresh, 0, 1);
    const steps: number = engine.forecast(table, fresh);
    const calls = [recorded(CALL_ARRIVE, 0, 1), ...Array.from({ length: steps }, () => recorded(CALL_STEP))];
    return engine.replay(table, engine.start(table), new Uint8Array(calls.flat()));
}

/** What went wrong, in words. */
export function reason(thrown: unknown): string {
    if (thrown instanceof Fault) return `${thrown.line}:${thrown.column}: ${thrown.word}`;
    return thrown instanceof Refusal ? `${thrown.number}, ${thrown.word}` : String(thrown);
}

/** Never called: what must not compile. */
export function faults(engine: Engine, round: Round, bytes: Uint8Array): void {
    // @ts-expect-error: a player is always named
    round.arrive(0);
    // @ts-expect-error: and here
    round.board(0);
    // @ts-expect-error: and here
    engine.arrive(bytes, bytes, 0);
    // @ts-expect-error: and here
    engine.leak(bytes);
    // @ts-expect-error: and here
    recorded(CALL_ARRIVE, 0);
    // @ts-expect-error: no kind of call
    recorded(3, 0, 0);
    // @ts-expect-error: a table is bytes
    engine.start([1, 2, 3]);
    // @ts-expect-error: the text is due
    engine.assemble();
    // @ts-expect-error: no module is loaded from a path
    void load("engine.wasm");
    // @ts-expect-error: a step's answer is a BigInt
    stepOf(3);
    // @ts-expect-error: a step has five parts
    engine.told({ kind: COMMITTED, player: 1, event: 0, arrival: 0 });
    // @ts-expect-error: what was done cannot be changed
    round.step().event = 3;
}
