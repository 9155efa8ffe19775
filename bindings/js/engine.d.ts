// Types of engine.mjs, for TypeScript in strict mode. README.md has what each call does.

/** Of the interface, and of the layout of table and round. */
export declare const VERSION: 1;
export declare const LAYOUT: 1;

/** Sizes in bytes: of a sheet at most, parameters, a table, a round, a formula's field and a sheet's text at most. */
export declare const SHEET: 8192;
export declare const PARAMS: 32;
export declare const TABLE: 34816;
export declare const ROUND: 2048;
export declare const FIELD: 7168;
export declare const SHEET_TEXT: 65536;
/** Behaviours of a circle, at most. */
export declare const LIST: 64;
/** Arrivals in hand, at most. */
export declare const HAND: 64;
/** The player who may do everything. */
export declare const HOST: 0;
/** The event of a circle that arises under none. */
export declare const NO_EVENT: 255;

/** What a step did. */
export declare const IDLE: 0;
export declare const RAN: 1;
export declare const STARTED: 2;
export declare const COMMITTED: 3;
export declare const BROKE_IN: 4;
export declare const STEP_REFUSED: 14;
export type StepKind =
    | typeof IDLE | typeof RAN | typeof STARTED | typeof COMMITTED | typeof BROKE_IN | typeof STEP_REFUSED;

/** Why a frame ended. */
export declare const FRAME_MADE: 0;
export declare const FRAME_IDLE: 1;
export declare const FRAME_REFUSED: 2;
export declare const FRAME_FULL: 3;
export type FrameEnd = typeof FRAME_MADE | typeof FRAME_IDLE | typeof FRAME_REFUSED | typeof FRAME_FULL;

/** How a delivery ended that was not refused, as C has it. */
export declare const DELIVERED: 1;
export declare const DELIVER_FULL: 2;
export declare const DELIVER_BROKEN: 3;

/** The kinds of a recorded call. */
export declare const CALL_ARRIVE: 0;
export declare const CALL_STEP: 1;
export declare const CALL_BOARD: 2;

/** A step by its parts: what is sent as JSON, or to a worker, and what comes back. */
export interface StepParts {
    readonly kind: StepKind;
    /** Of a start, a commit or a break-in: who sent the event, its number, and the arrival's. */
    readonly player: number;
    readonly event: number;
    readonly arrival: number;
    /** Of a commit: somewhere in the event's meaning a result was not the exact one. For the host alone. */
    readonly over: boolean;
}

/** A step, with its packed answer as C has it, which is not sent. */
export interface Step extends StepParts {
    readonly answer: bigint;
}

/** What a frame's steps did: how many were made, the commits among them, and why it ended. */
export interface Frame {
    readonly steps: number;
    readonly commits: Step[];
    readonly end: FrameEnd;
}

/** An entry that was taken in: the steps that made room for it, and their commit, none or one. */
export interface Delivered {
    readonly steps: number;
    readonly commits: Step[];
}

/** How many arrivals were taken in, and how many of them are in hand. */
export interface Taken {
    readonly number: number;
    readonly inHand: number;
}

/** The board after a number of entries, null for what is hidden from the player, and the commits on the way. */
export interface BoardAfter {
    readonly board: (number | null)[];
    readonly commits: Step[];
}

/** A recorded call: its kind, a number of four bytes, and the player. */
export type Recorded = [number, number, number, number, number, number];

/** Compile's number, or 0; with 12 the event, NO_EVENT for none, and the behaviours of a circle. */
export interface Circle {
    readonly number: number;
    readonly event?: number;
    readonly circle?: number[];
}

/** Compile's number, or 0; with 29 two events and a behaviour that they share. */
export interface Agreement {
    readonly number: number;
    readonly events?: [number, number];
    readonly behaviour?: number;
}

/** Compile's number, 15 or 0; where two events share a behaviour, who of the two writes and reads it. */
export interface Pair {
    readonly number: number;
    readonly behaviour?: number;
    readonly writes?: [boolean, boolean];
    readonly reads?: [boolean, boolean];
    readonly bothAdd?: boolean;
    readonly meet?: boolean;
}

/** Compile's number, 24 or 0; with 30 a behaviour that the player sees and a hidden one that it names. */
export interface Leak {
    readonly number: number;
    readonly seen?: number;
    readonly hidden?: number;
}

export interface Version {
    readonly interface: number;
    readonly layout: number;
}

/** A call was turned down, and changed nothing. */
export declare class Refusal extends Error {
    constructor(call: string, number: number);
    readonly name: "Refusal";
    readonly number: number;
    readonly word: string;
}

/** A board or a change was asked for at another number of entries than are taken in. */
export declare class NotThere extends Error {
    constructor(call: string, asked: number, taken: number);
    readonly name: "NotThere";
    readonly taken: number;
}

/** A sheet's text was turned down: its first fault, line and column from 1. */
export declare class Fault extends Error {
    constructor(answer: bigint);
    readonly name: "Fault";
    readonly number: number;
    readonly word: string;
    readonly line: number;
    readonly column: number;
}

/** The word of a refusal's number. */
export declare function refusalWord(number: number): string;

/** The parts of a step's answer, as `call` and `replay` give it. */
export declare function stepOf(answer: bigint): Step;

/** A recorded call's six bytes. A step has neither a number nor a player. */
export declare function recorded(kind: typeof CALL_STEP, number?: number, player?: number): Recorded;
export declare function recorded(
    kind: typeof CALL_ARRIVE | typeof CALL_BOARD, number: number, player: number,
): Recorded;

/** Eight parameters as their 32 bytes, from at most eight whole numbers of 32 bits with a sign; the others are 0. */
export declare function parameters(values: Iterable<number>): Uint8Array;

/** Whether two tables are the same program. */
export declare function sameTable(one: Uint8Array, other: Uint8Array): boolean;

/** What is asked of a Response. */
export interface Received {
    readonly ok: boolean;
    readonly status: number;
    readonly statusText: string;
    readonly url: string;
    readonly headers: { get(name: string): string | null };
    arrayBuffer(): Promise<ArrayBuffer>;
}

/** A WebAssembly.Module, whether or not the program's libraries declare one. */
export interface CompiledModule {
    readonly [Symbol.toStringTag]?: "WebAssembly.Module";
}

export type Source = ArrayBuffer | ArrayBufferView | CompiledModule | Received;

/** Loads engine.wasm: its bytes, a WebAssembly.Module, or a Response. */
export declare function load(source: Source | PromiseLike<Source>): Promise<Engine>;

/** The text of a formula or a sheet, or its bytes in UTF-8. */
export type Text = string | Uint8Array;

/** A round that stays in the module's memory with its table. */
export interface Round {
    arrive(event: number, player: number): void;
    deliver(number: number, event: number, player: number): Delivered;
    taken(): Taken;
    runToIdle(): Step[];
    boardAfter(number: number, player: number): BoardAfter;
    mendAfter(number: number, table: Uint8Array): Step[];
    step(): Step;
    frame(steps: number, most?: number): Frame;
    board(behaviour: number, player: number): number;
    preview(event: number, behaviour: number, player: number): number;
    forecast(): number;
    mend(table: Uint8Array): void;
    /** A copy: to save it, to send it, or for the engine's own calls. */
    bytes(): Uint8Array;
    /** Gives its memory back: it cannot be used any more. */
    free(): void;
}

/** The engine, as `load` gives it. A player is always named, 0 being the host. */
export interface Engine {
    /** A call as C makes it, by its name without the prefix. Buffers that it writes are changed. */
    call(name: string, ...given: (Uint8Array | number | bigint)[]): bigint;

    compile(sheet: Uint8Array, params?: Uint8Array): Uint8Array;
    circle(sheet: Uint8Array, params?: Uint8Array): Circle;
    agree(sheet: Uint8Array, params?: Uint8Array): Agreement;
    agreeFor(sheet: Uint8Array, params: Uint8Array | undefined, behaviour: number): Agreement;
    pair(sheet: Uint8Array, params: Uint8Array | undefined, first: number, second: number): Pair;
    leak(sheet: Uint8Array, params: Uint8Array | undefined, player: number): Leak;
    formula(text: Text): Uint8Array;
    assemble(text: Text): Uint8Array;
    describe(sheet: Uint8Array): string;
    join(first: Uint8Array, second: Uint8Array, params?: Uint8Array): Uint8Array;
    version(): Version;
    eventCount(table: Uint8Array): number;
    behaviourCount(table: Uint8Array): number;
    eventRank(table: Uint8Array, event: number): number;

    open(table: Uint8Array): Round;
    resume(table: Uint8Array, round: Uint8Array): Round;

    start(table: Uint8Array): Uint8Array;
    arrive(table: Uint8Array, round: Uint8Array, event: number, player: number): void;
    deliver(table: Uint8Array, round: Uint8Array, number: number, event: number, player: number): Delivered;
    taken(table: Uint8Array, round: Uint8Array): Taken;
    step(table: Uint8Array, round: Uint8Array): Step;
    frame(table: Uint8Array, round: Uint8Array, steps: number, most?: number): Frame;
    told(step: StepParts): Step;
    board(table: Uint8Array, round: Uint8Array, behaviour: number, player: number): number;
    forecast(table: Uint8Array, round: Uint8Array): number;
    preview(table: Uint8Array, round: Uint8Array, event: number, behaviour: number, player: number): number;
    mend(old: Uint8Array, table: Uint8Array, round: Uint8Array): void;
    replay(table: Uint8Array, round: Uint8Array, calls: Uint8Array): bigint[];
}
