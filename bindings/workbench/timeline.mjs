// Both phones on one axis of steps: a lane for each event, the more urgent ones above; a bar while it runs, what was
// dropped at a break-in, what waits, arrivals and refusals.
import { long, player, refusal } from "./words.mjs";
import { shape } from "./dom.mjs";

const LEFT = 96; // in pixels
const RIGHT = 20;
const HEAD = 26;
const LANE = 30;
const BAR = 14;
const AXIS = 26;
const STEP = 14; // a step's width, at most
const NARROW = 0.4; // and at least
const WIDEST = 16_000;

/** What happened on a phone, as stretches, waits and points: marks are { step, mark }. */
export function sceneOf(marks, steps) {
    const scene = { stretches: [], waits: [], arrivals: [], refused: [], breaks: [], changes: [] };
    const waiting = new Map(); // an arrival's number to { act, from }
    let running;
    const close = (to, end) => {
        scene.stretches.push({ ...running, to, end });
        if (end === "dropped") waiting.set(running.act.number, { act: running.act, from: to });
        running = undefined;
    };
    const begin = (act, from, again) => {
        const { from: since } = waiting.get(act.number) ?? { from };
        scene.waits.push({ act, from: since, to: from });
        waiting.delete(act.number);
        running = { act, from, again };
    };
    for (const { step, mark } of marks) {
        const before = Math.max(step - 1, 0);
        if (mark.kind === "arrived") {
            scene.arrivals.push({ ...mark, step });
            waiting.set(mark.act.number, { act: mark.act, from: step });
        } else if (mark.kind === "refused") scene.refused.push({ ...mark, step });
        else if (mark.kind === "committed") close(step, mark.over ? "ran over" : "committed");
        else if (mark.kind === "mended") {
            if (running !== undefined) close(step, "dropped");
            scene.changes.push({ path: mark.path, step });
        } else {
            if (mark.kind === "broke in") {
                scene.breaks.push({ by: mark.act, of: running.act, step: before });
                close(before, "dropped");
            }
            begin(mark.act, before, mark.again);
        }
    }
    if (running !== undefined) scene.stretches.push({ ...running, to: steps, end: "open" });
    for (const { act, from } of waiting.values()) scene.waits.push({ act, from, to: steps });
    return scene;
}

/** The events that have a lane, the more urgent ones first: [{ name, rank }]. */
function lanesOf(scenes) {
    const lanes = new Map();
    for (const { arrivals, refused } of scenes) {
        arrivals.forEach(({ act }) => lanes.set(act.event, { name: act.event, rank: act.rank }));
        refused.forEach(({ event }) => lanes.has(event) || lanes.set(event, { name: event, rank: undefined }));
    }
    return [...lanes.values()].sort((a, b) => (b.rank ?? -1) - (a.rank ?? -1));
}

/** Draws phones into a picture: [{ name, marks, steps }], as wide as there is room. */
export function draw(svg, phones, room) {
    const scenes = phones.map(({ marks, steps }) => sceneOf(marks, steps));
    const lanes = lanesOf(scenes);
    const steps = Math.max(1, ...phones.map((phone) => phone.steps));
    const plot = Math.min(Math.max(room - LEFT - RIGHT, NARROW * steps), WIDEST);
    const page = { lanes, step: Math.min(plot / steps, STEP), width: LEFT + plot + RIGHT, steps };
    const block = HEAD + LANE * Math.max(lanes.length, 1);
    const height = phones.length * block + AXIS;
    svg.setAttribute("viewBox", `0 0 ${page.width} ${height}`);
    svg.setAttribute("width", page.width);
    svg.setAttribute("height", height);
    const parts = phones.map(({ name }, k) => phoneOf(page, { ...scenes[k], name }, k * block));
    svg.replaceChildren(axis(page, phones.length * block), ...parts);
}

const x = (page, step) => LEFT + step * page.step;
const lineOf = (from, to, style) => shape("line", { x1: from[0], y1: from[1], x2: to[0], y2: to[1], class: style });

// Steps between two figures: 1, 2 or 5 times a power of ten.
function every(page) {
    for (let power = 1; ; power *= 10) {
        const found = [power, 2 * power, 5 * power].find((n) => n * page.step >= 44);
        if (found !== undefined) return found;
    }
}

function axis(page, bottom) {
    const group = shape("g", { class: "axis" });
    const last = Math.floor((page.width - LEFT - RIGHT) / page.step);
    for (let step = 0; step <= last; step += every(page)) {
        const at = x(page, step);
        group.append(lineOf([at, HEAD - 6], [at, bottom + 3], "grid"));
        group.append(shape("text", { x: at, y: bottom + 18, "text-anchor": "middle" }, long(step)));
    }
    group.append(shape("text", { x: 0, y: bottom + 18 }, "steps"));
    return group;
}

function phoneOf(page, scene, top) {
    const group = shape("g", {}, shape("text", { x: 0, y: top + 16, class: "phone" }, scene.name));
    const middle = (event) => top + HEAD + LANE * (page.lanes.findIndex(({ name }) => name === event) + 0.5);
    page.lanes.forEach(({ name, rank }, k) => {
        const y = top + HEAD + LANE * (k + 0.5);
        const short = name.length > 9 ? `${name.slice(0, 8)}..` : name;
        const label = shape("text", { x: 0, y: y + 4, class: "lane" }, short);
        label.append(shape("title", {}, rank === undefined ? name : `${name}, rank ${rank}`));
        const number = shape("text", { x: LEFT - 10, y: y + 4, class: "rank", "text-anchor": "end" }, rank ?? "");
        group.append(lineOf([LEFT, y], [page.width - RIGHT, y], "base"), label, number);
    });
    scene.waits.forEach((wait) => group.append(waitOf(page, wait, middle(wait.act.event))));
    scene.stretches.forEach((stretch) => group.append(stretchOf(page, stretch, middle(stretch.act.event))));
    scene.changes.forEach((change) => group.append(changeOf(page, change, top)));
    scene.breaks.forEach((found) => group.append(breakOf(page, found, middle)));
    scene.arrivals.forEach((arrival) => group.append(arrivalOf(page, arrival, middle(arrival.act.event))));
    scene.refused.forEach((refused) => group.append(refusedOf(page, refused, middle(refused.event))));
    return group;
}

function waitOf(page, { act, from, to }, y) {
    const line = lineOf([x(page, from), y], [x(page, to), y], "wait");
    line.append(shape("title", {}, `${act.event} #${act.number} waits, steps ${from} to ${to}`));
    return line;
}

const ENDS = {
    committed: "commits", "ran over": "commits; a result ran over", dropped: "its work is dropped", open: "runs",
};

function stretchOf(page, { act, from, to, again, end }, y) {
    const width = Math.max((to - from) * page.step, 1.5);
    const style = `bar ${end.replace(" ", "-")}`;
    const bar = shape("rect", { x: x(page, from), y: y - BAR / 2, width, height: BAR, rx: 2.5, class: style });
    const words = `${act.event} #${act.number}${again ? " again" : ""}: steps ${from + 1} to ${to}, ${ENDS[end]}`;
    const group = shape("g", {}, shape("title", {}, words), bar);
    const label = `#${act.number}`;
    if (width > 8 + 7 * label.length) {
        const at = { x: x(page, from) + width / 2, y: y + 4, "text-anchor": "middle", class: `on ${style}` };
        group.append(shape("text", at, label));
    }
    return group;
}

function arrivalOf(page, { act, step, player: who }, y) {
    const [at, top] = [x(page, step), y - BAR / 2 - 2];
    const path = shape("path", { d: `M ${at - 4} ${top - 6} h 8 l -4 6 z`, class: "arrival" });
    path.append(shape("title", {}, `${act.event} #${act.number} arrives from ${player(who)}, after step ${step}`));
    return path;
}

function refusedOf(page, { event, number, step }, y) {
    const at = x(page, step);
    const cross = shape("path", { d: `M ${at - 4} ${y - 4} l 8 8 m 0 -8 l -8 8`, class: "refused" });
    cross.append(shape("title", {}, `${event} is refused: ${refusal(number)}, after step ${step}`));
    return cross;
}

function breakOf(page, { by, of, step }, middle) {
    const [from, to] = [middle(by.event), middle(of.event)];
    const at = x(page, step);
    const down = to > from ? -1 : 1;
    const d = `M ${at} ${from} V ${to} m -4 ${5 * down} l 4 ${-5 * down} l 4 ${5 * down}`;
    const words = `${by.event} #${by.number} breaks into ${of.event} #${of.number}`;
    return shape("path", { d, class: "break" }, shape("title", {}, words));
}

function changeOf(page, { path, step }, top) {
    const bottom = top + HEAD + LANE * page.lanes.length;
    const line = lineOf([x(page, step), top + 8], [x(page, step), bottom], "change");
    line.append(shape("title", {}, `the sheet is now ${path}`));
    return line;
}
