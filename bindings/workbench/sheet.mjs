// A sheet with the names of what it declares, as `setter` has it: from a text or from a sheet's bytes.
import { parameters } from "../js/engine.mjs";
import { handlerLine, namesOf, paramsUsed, parts } from "./names.mjs";
import { listed, refused, words } from "./words.mjs";

const CIRCLE = 12;
const OVERLONG = 13;
const CHANGES = 8; // so many numbers that change their meaning are named; the others are counted

/** What is told to the reader: a sheet, a script or a file that cannot be used. */
export class Failure extends Error {
    constructor(message) {
        super(message);
        this.name = "Failure";
    }
}

/** Whether bytes are a sheet's and no text: no text begins with one of these bytes. */
export function isSheet(bytes) {
    return [1, 2, 3, 6].includes(bytes[0]);
}

/** A file of a sheet, as text or as bytes. A text that is turned down throws the engine's Fault. */
export function loadSheet(engine, path, bytes) {
    if (!isSheet(bytes)) return new Sheet(engine, path, { sheet: engine.assemble(bytes), source: bytes });
    try {
        const source = new TextEncoder().encode(engine.describe(bytes));
        return new Sheet(engine, path, { sheet: bytes, source, unnamed: true });
    } catch (error) {
        if (error.name !== "Refusal") throw error;
        throw new Failure(`${path}: ${refused(error.number)}`);
    }
}

export class Sheet {
    constructor(engine, path, { sheet, source, unnamed = false }) {
        Object.assign(this, { engine, path, sheet, source, unnamed }, namesOf(source));
        this.events = this.events.map(({ name }) => name);
    }

    // ---- parameters

    /** Gives a parameter a value; whether there is one of this name. */
    set(name, value) {
        const own = this.params.find((param) => param.name === name);
        if (own !== undefined) own.value = value;
        return own !== undefined;
    }

    /** The bytes of the values lent, 0 for a parameter that has none. */
    lent() {
        return parameters(this.params.map(({ value }) => value ?? 0));
    }

    /** A round needs a value for each parameter that the sheet uses. */
    allGiven() {
        const missing = this.params.find((param, k) => param.value === undefined && this.used().includes(k));
        if (missing === undefined) return;
        const way = `give it a value with --param ${missing.name}=VALUE`;
        throw new Failure(`${this.path}: the parameter ${missing.name} has no default: ${way}`);
    }

    used() {
        try {
            return paramsUsed(new TextEncoder().encode(this.engine.describe(this.sheet)));
        } catch (error) {
            if (error.name === "Refusal") return []; // it is turned down anyway
            throw error;
        }
    }

    /** ` with points = 10, need = 3`: the values that a round is played with. */
    withValues() {
        const given = this.params.filter(({ value }) => value !== undefined);
        return given.length === 0 ? "" : ` with ${given.map(({ name, value }) => `${name} = ${value}`).join(", ")}`;
    }

    // ---- the table

    /** The table, or a Failure that states why there is none. */
    compile() {
        const lent = this.lent();
        try {
            return this.engine.compile(this.sheet, lent);
        } catch (error) {
            if (error.name !== "Refusal") throw error;
            if (error.number === CIRCLE) throw this.circle(lent);
            const few = "every event works out each passive twice, so that few passives or few events help most";
            const more = error.number === OVERLONG ? `: ${few}` : "";
            throw new Failure(`${this.path}: ${refused(error.number)}${more}`);
        }
    }

    /** A shortest circle by names, with the lines that it goes through and the ways out of it. */
    circle(lent) {
        const { event, circle } = this.engine.circle(this.sheet, lent);
        const under = event < this.events.length ? `on event ${this.events[event]}` : "whatever the event";
        const needs = circle.map((a, k) => {
            const b = circle[(k + 1) % circle.length];
            return `${this.behaviour(a)} needs ${a === b ? "itself" : this.behaviour(b)}`;
        });
        const groups = circle.map((b) => this.group(b));
        const failure = new Failure(`${this.path}: circle (${CIRCLE}): ${under}, ${listed(needs)}`);
        failure.words = `circle (${CIRCLE}): ${under}, ${listed(needs)}`;
        failure.line = groups[0]?.line;
        failure.lines = this.circleLines(groups, this.events[event]);
        failure.ways = circleWays(groups);
        return failure;
    }

    circleLines(groups, event) {
        const lines = groups.flatMap(({ name, line }) => [line, handlerLine(this.source, name, event)]);
        return [...new Set(lines.filter((line) => line !== undefined))].sort((a, b) => a - b);
    }

    // ---- names

    group(behaviour) {
        return this.groups.find(({ first, count }) => behaviour >= first && behaviour < first + count);
    }

    event(number) {
        return this.events[number] ?? `e${number}`;
    }

    /** A behaviour's name, with its cell. */
    behaviour(number) {
        const group = this.group(number);
        if (group === undefined) return `b${number}`;
        return group.cells === undefined ? group.name : `${group.name}[${number - group.first}]`;
    }

    get count() {
        return this.groups.reduce((sum, { count }) => sum + count, 0);
    }

    /** All behaviours, a row being one: { label, members, row }. */
    everything() {
        return this.groups.map(whole);
    }

    /** A behaviour, a row, or a cell of one: `score`, `lamp`, `lamp[3]`; undefined where there is none. */
    shown(word) {
        const group = this.groups.find(({ name }) => name === word);
        if (group !== undefined) return whole(group);
        const [, name, cell] = /^([^[]*)\[\+?(\d+)\]$/.exec(word) ?? [];
        const row = this.groups.find((own) => own.name === name && own.cells > Number(cell));
        return row && { label: word, members: [row.first + Number(cell)], row: false };
    }

    // ---- a change of sheets

    /**
     * The same sheet with its events and behaviours in the order of another's, by name, so that what is alike in both
     * has one number. Events that it lacks are declared as there.
     */
    inOrderOf(first) {
        if (this.unnamed || first.unnamed) {
            throw new Failure(`${first.path} and ${this.path} go together by name only where both are text`);
        }
        const [theirs, own] = [parts(first.source), parts(this.source)];
        const text = [];
        for (const sort of ["param", "event", "behaviour"]) {
            const before = sort === "param" ? [] : theirs.filter((part) => part.sort === sort);
            const mine = own.filter((part) => part.sort === sort);
            if (sort === "behaviour") before.forEach(({ name }) => this.sameCells(first, name));
            text.push(...before.map((part) => mine.find(({ name }) => name === part.name) ?? part));
            text.push(...mine.filter((part) => before.every(({ name }) => name !== part.name)));
        }
        const source = text.flatMap((part) => [...part.text, 10]);
        const sheet = loadSheet(this.engine, this.path, Uint8Array.from(source));
        this.params.forEach(({ name, value }) => value === undefined || sheet.set(name, value));
        return sheet;
    }

    sameCells(first, name) {
        const cells = (sheet) => sheet.groups.find((group) => group.name === name)?.count;
        if (cells(this) === undefined) {
            throw new Failure(`${this.path}: has no ${name}, whose value ${first.path} keeps`);
        }
        if (cells(this) !== cells(first)) {
            throw new Failure(`${this.path}: ${name} has not the cells that it has in ${first.path}`);
        }
    }

    /** Where a change from another sheet to this one gives a number another name. */
    changes(old) {
        if (this.unnamed || old.unnamed) return [];
        const numbers = (count) => Array.from({ length: count }, (_, k) => k);
        const behaviours = numbers(Math.min(this.count, old.count))
            .map((b) => ["change.behaviour", b, old.behaviour(b), this.behaviour(b)]);
        const events = numbers(Math.min(this.events.length, old.events.length))
            .map((e) => ["change.event", e, old.events[e], this.events[e]]);
        const unlike = [...behaviours, ...events].filter(([, , was, is]) => was !== is);
        const told = unlike.map(([key, number, was, is]) => words(key, String(number), was, is));
        const more = told.length - CHANGES;
        return more > 0 ? [...told.slice(0, CHANGES), `and ${more} more`] : told;
    }
}

function whole({ name, first, count, cells }) {
    return { label: name, members: Array.from({ length: count }, (_, k) => first + k), row: cells !== undefined };
}

function circleWays(groups) {
    const passive = groups.find(({ kind }) => kind === "passive");
    const active = groups.find(({ kind }) => kind !== "passive");
    if (active === undefined) return [words("circle.passives")];
    if (passive === undefined) return [words("circle.later")];
    return [words("circle.passive", active.name, passive.name), words("circle.later")];
}
