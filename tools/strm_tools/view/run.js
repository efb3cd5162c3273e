"use strict";
// The run as the page has it: lines in chunks (view/chunks.py), and tracks (film.py). A chunk or a track is read when it is needed.

const byId = (id) => document.getElementById(id);

// Makes an element with a text, unless that is empty, and attributes.
function made(name, text, attributes = {}) {
    const node = Object.assign(document.createElement(name), attributes);
    if (text !== "") node.append(text);
    return node;
}

const run = JSON.parse(byId("run").textContent);
const ROWS = document.querySelectorAll("script.rows");
const STATES = document.querySelectorAll("script.states");
const TRACKS = new Map(Array.from(document.querySelectorAll("script.track"), (track) => [track.dataset.name, track]));
const sum = (numbers) => numbers.reduce((before, number) => before + number, 0);

// 0, and the sums of the first number, the first two, and so on.
function sums(numbers) {
    const all = [0];
    for (const number of numbers) all.push(all.at(-1) + number);
    return all;
}

// The place of the last of rising numbers that is not above this one, or -1.
function placeOf(numbers, number) {
    let [low, high] = [0, numbers.length];
    while (low < high) {
        const middle = (low + high) >> 1;
        if (numbers[middle] <= number) low = middle + 1;
        else high = middle;
    }
    return low - 1;
}

// A function that keeps its last results.
function remembered(most, make) {
    const kept = new Map();
    return (key) => {
        const value = kept.has(key) ? kept.get(key) : make(key);
        kept.delete(key);
        kept.set(key, value);
        if (kept.size > most) kept.delete(kept.keys().next().value);
        return value;
    };
}

// ---- Lines -------------------------------------------------------------------------------------------------------------------

// Frame 0 is the pool as it opens, and frame k the pool after the k-th executed line.
const LINES_BEFORE = sums(run.lines);
const ROWS_BEFORE = sums(run.rows);
const LAST = LINES_BEFORE.at(-1);
const NO_CALLER = "no caller";
const ROW_COUNT = ROWS_BEFORE.at(-1);

const chunkOf = (frame) => (frame === 0 ? 0 : placeOf(LINES_BEFORE, frame - 1));
const firstFrameOf = (chunk) => (chunk === 0 ? 0 : LINES_BEFORE[chunk] + 1);

const LINE = /^(\d+):(\d+) ([^\t]*)\t?([^\t]*)\t?([^\t]*)\t?(.*)$/;
const shielded = (text) => text.replaceAll("&", "&amp;").replaceAll("<", "&lt;");
const unshielded = (text) => text.replaceAll("&lt;", "<").replaceAll("&amp;", "&");

// The rule that decided something, with the numbers of its sentence.
function readRule(text) {
    const [rule, ...numbers] = text.split(" ");
    return rule ? {rule, ...Object.fromEntries(numbers.map((number) => number.split("=")))} : undefined;
}

function readRow(text, frame) {
    if (text.startsWith("#")) return {kind: "comment", text: unshielded(text)};
    if (text.startsWith("=")) {
        const [line, queue] = text.slice(1).split("\t");
        return {kind: "header", text: line, queue};
    }
    if (text.startsWith("@")) return {kind: "caller", text: run.callerNames[text.slice(1)] ?? NO_CALLER};
    if (text === ">") return {kind: "opening", frame: 0, command: "", reply: "", events: []};
    const [, worker, number, command, reply, events, rule] = LINE.exec(text);
    const happened = events.split(" ").filter((event) => event);
    return {kind: "line", frame, worker: Number(worker), number: Number(number), command, reply: reply || "ok", events: happened, why: readRule(rule)};
}

// The rows of a chunk, and the place among them of each frame.
const rowsIn = remembered(64, (chunk) => {
    const places = [];
    const rows = ROWS[chunk].textContent.split("\n").map((text, place) => {
        const row = readRow(text, firstFrameOf(chunk) + places.length);
        if (row.frame !== undefined) places.push(place);
        return row;
    });
    return {rows: run.rows[chunk] > 0 ? rows : [], places};
});

const placeInChunk = (frame, chunk) => rowsIn(chunk).places[frame - firstFrameOf(chunk)];

// The line of a frame.
const lineAt = (frame) => rowsIn(chunkOf(frame)).rows[placeInChunk(frame, chunkOf(frame))];

// The frame of a line of the script, such as 723, or 0:723 with its worker; undefined if it was not executed.
function frameOfPlace(place) {
    const [, worker, number] = /^(?:(\d+):)?(\d+)$/.exec(place) ?? [];
    const begins = new RegExp(`^${worker ?? "\\d+"}:${number} `, "m");
    for (let chunk = 0; number !== undefined && chunk < ROWS.length; chunk++) {
        if (!begins.test(ROWS[chunk].textContent)) continue;
        const row = rowsIn(chunk).rows.find((one) => one.number === Number(number) && (worker === undefined || one.worker === Number(worker)));
        if (row) return row.frame;
    }
    return undefined;
}

// Which row of the list a frame has, and the row at a place of the list.
const rowOf = (frame) => ROWS_BEFORE[chunkOf(frame)] + placeInChunk(frame, chunkOf(frame));

function rowAt(place) {
    const chunk = placeOf(ROWS_BEFORE, place);
    return rowsIn(chunk).rows[place - ROWS_BEFORE[chunk]];
}

const CALLERS_BEGIN = run.callers.map(([number]) => number);
const callerOf = (line) => run.callerNames[run.callers[placeOf(CALLERS_BEGIN, line.number)]?.[1]] ?? "";

// ---- Tracks --------------------------------------------------------------------------------------------------------------------

const trackOf = (name) => (TRACKS.has(name) ? JSON.parse(TRACKS.get(name).textContent) : []);

// The frames of a track.
const framesOf = remembered(100, (name) => sums(trackOf(name)).slice(1));

// The steps of a number: frames, and its value from each on.
const stepsOf = remembered(100, (name) => {
    const [first, ...steps] = trackOf(name);
    const frames = sums(steps.filter((_, place) => place % 2 === 0));
    const changes = sums(steps.filter((_, place) => place % 2 === 1));
    return {frames, values: changes.map((change) => first + change)};
});

const valueAt = ({frames, values}, frame) => values[placeOf(frames, frame)];

// ---- The pool at a frame ---------------------------------------------------------------------------------------------------------

const statesIn = remembered(4, (chunk) => JSON.parse(STATES[chunk].textContent));
const changesAt = (frame) => statesIn(chunkOf(frame))[1][frame - 1 - LINES_BEFORE[chunkOf(frame)]];

// The parts that were read last, and of which frame they are.
const reached = {chunk: -1, frame: 0, parts: new Map()};

function change(parts, [part, place, gone, ...items]) {
    if (part < 0) return;
    if (!parts.has(part)) parts.set(part, []);
    parts.get(part).splice(place, gone, ...items);
}

// The parts of the pool at a frame, which the next call changes.
function partsAt(frame) {
    const chunk = chunkOf(frame);
    const [opening, lines] = statesIn(chunk);
    if (reached.chunk !== chunk || reached.frame > frame) {
        const parts = new Map(Object.entries(opening).map(([part, items]) => [Number(part), [...items]]));
        Object.assign(reached, {chunk, frame: LINES_BEFORE[chunk], parts});
    }
    for (; reached.frame < frame; reached.frame++) {
        for (const told of lines[reached.frame - LINES_BEFORE[chunk]]) change(reached.parts, told);
    }
    return reached.parts;
}

// ---- Bytes -----------------------------------------------------------------------------------------------------------------------

const fromHex = (hex) => Uint8Array.from(hex === "-" ? [] : hex.match(/../g), (digits) => parseInt(digits, 16));

// The pieces that bytes of this number are made of: each has its beginning, its end, and bytes, or the number and beginning of others.
function piecesOf(number) {
    const made = changesAt(number).find(([part]) => part < 0)?.slice(1) ?? [0, 0];
    if (!Array.isArray(made[0])) {
        const [before, at] = made;
        const bytes = fromHex(lineAt(number).command.split(" ")[3]);
        return [{begin: 0, end: at, number: before, at: 0}, {begin: at, end: at + bytes.length, bytes}];
    }
    let end = 0;
    return made.map(([before, from, to]) => ({begin: end, end: (end += to - from), number: before, at: from}));
}

// The bytes of a number from one place to another.
function octetsOf(number, from, to) {
    const octets = new Uint8Array(to - from);
    // What is still to be found: bytes of a number from a beginning to an end, and where they go.
    const open = [{number, begin: from, end: to, target: 0}];
    while (open.length > 0) {
        const {number, begin, end, target} = open.pop();
        if (number === 0 || begin >= end) continue;
        for (const piece of piecesOf(number)) {
            const [first, last] = [Math.max(begin, piece.begin), Math.min(end, piece.end)];
            if (first >= last) continue;
            const place = target + first - begin;
            const [one, other] = [first, last].map((at) => at - piece.begin);
            if (piece.bytes) octets.set(piece.bytes.subarray(one, other), place);
            else open.push({number: piece.number, begin: piece.at + one, end: piece.at + other, target: place});
        }
    }
    return octets;
}
