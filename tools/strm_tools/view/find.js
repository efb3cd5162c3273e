// Finding frames: of a kind, by a queue or a register, or by text.

// ---- By kind -----------------------------------------------------------------------------------------------------------------------

const queuesOf = (name) => run.queues.flatMap((_, queue) => (TRACKS.has(`${name} ${queue}`) ? [queue] : []));

const registersUsed = () => [...TRACKS.keys()].filter((name) => name.startsWith("used ")).map((name) => name.split(" ").slice(1)).sort();

// The frames of several tracks, in order.
function merged(names) {
    return [...new Set(names.flatMap(framesOf))].sort((one, other) => one - other);
}

// What can be looked for: by a queue or any, by a register, or by nothing more.
const KINDS = {
    refused: {name: "a call is refused"},
    no: {name: "a bcanput says no", by: "queue"},
    back: {name: "a band drains: back-enabling", by: "queue"},
    enabled: {name: "a queue is enabled", by: "queue"},
    full: {name: "a band becomes full", by: "queue"},
    changed: {name: "a queue changes", by: "queue"},
    used: {name: "a register is used", by: "register"},
};

const option = (value, text) => made("option", text, {value});

// The queues that a kind has frames of, by their modules.
function queueOptions(kind) {
    const queues = queuesOf(kind);
    return GROUPS.flatMap(({label, queues: own}) => {
        const options = own.filter((queue) => queues.includes(queue)).map((queue) => option(queue, labelOf(queue)));
        if (!label || options.length === 0) return options;
        const group = made("optgroup", "", {label: `module ${label}`});
        group.append(...options);
        return [group];
    });
}

function optionsOf(kind) {
    const {by} = KINDS[kind];
    if (by === "queue") return [option("any", "any queue"), ...queueOptions(kind)];
    if (by === "register") return registersUsed().map(([worker, letter]) => option(`${worker} ${letter}`, placeName(`worker ${worker} ${letter}`)));
    return [];
}

// The frames of what is looked for, as a kind and, after a slash, a queue or a register.
const matches = remembered(20, (key) => {
    const [kind, which] = key.split("/");
    if (which === "any") return merged(queuesOf(kind).map((queue) => `${kind} ${queue}`));
    return framesOf(which === "" ? kind : `${kind} ${which}`);
});

const lookedFor = () => `${byId("kind").value}/${byId("which").value}`;

// The next frame after one, or the last before it, or none.
function nextOf(frames, frame, step) {
    const place = step > 0 ? placeOf(frames, frame) + 1 : placeOf(frames, frame - 1);
    return frames[place];
}

function tellPlace(output, frames, frame) {
    const place = placeOf(frames, frame);
    const isThere = place >= 0 && frames[place] === frame;
    output.textContent = frames.length === 0 ? "none" : isThere ? `${place + 1} of ${frames.length}` : `${frames.length} in all`;
}

// Goes to the next frame of what is looked for, or to the one before.
function jump(step) {
    const frames = matches(lookedFor());
    const frame = nextOf(frames, current, step);
    if (frame !== undefined) show(frame);
    else byId("found").textContent = frames.length === 0 ? "none" : step > 0 ? "none after this frame" : "none before this frame";
}

// Looks for a kind from now on, and goes to the next frame of it, or to the one before.
function jumpTo(kind, step) {
    if (byId("kind").value !== kind) {
        byId("kind").value = kind;
        chooseKind();
    }
    jump(step);
}

function chooseKind() {
    const options = optionsOf(byId("kind").value);
    byId("which").replaceChildren(...options);
    byId("which").hidden = options.length === 0;
    tellFound();
}

const tellFound = () => tellPlace(byId("found"), matches(lookedFor()), current);

// ---- By text -----------------------------------------------------------------------------------------------------------------------

// The row that was found last.
let foundRow;

// Words of the list that the rows of a chunk do not have themselves.
const ADDED = [...run.callerNames, ...Object.values(run.labels), NO_CALLER, "back-enables", "fills", "band", "is", "full", "queue", "the pool opens"].filter((word) => word !== "").map((word) => word.toLowerCase());

// What is looked for: a text in small letters, its form as a whole word, and whether only whole words count, since it was in quotes.
function soughtFor(value) {
    const quoted = /^"(.+)"$/.exec(value);
    const text = (quoted ? quoted[1] : value).toLowerCase();
    const literal = text.replace(/[.*+?^${}()|[\]\\]/g, "\\$&");
    return {value, text, whole: new RegExp(`(?<![\\p{L}\\p{N}_-])${literal}(?![\\p{L}\\p{N}_-])`, "u"), isWhole: quoted !== null};
}

// The words that the search looks at of a row: what the list shows, but for the frame and the place.
const searchedText = (row) => cellsOfRow(row).filter(([kind]) => kind !== "frame" && kind !== "place").map(([, text]) => text).join("  ").toLowerCase();

// Whether what is looked for is the place of a row as a whole, such as 723 or 0:723. A part of it would find too many rows.
const isPlace = ({text}, {worker, number}) => number !== undefined && (text === `${number}` || text === `${worker}:${number}`);

const hasWord = (sought, row) => isPlace(sought, row) || sought.whole.test(searchedText(row));

const isHit = (sought, row) => (sought.isWhole ? hasWord(sought, row) : isPlace(sought, row) || searchedText(row).includes(sought.text));

// Whether the list may show a text that the rows of a chunk do not have themselves.
const mayBeAdded = ({text}) => ADDED.some((word) => word.includes(text) || text.includes(word));

// The rows of a chunk that have what is looked for.
function rowsWith(sought, chunk) {
    if (!mayBeAdded(sought) && !ROWS[chunk].textContent.toLowerCase().includes(shielded(sought.text))) return [];
    return rowsIn(chunk).rows.flatMap((row, place) => (isHit(sought, row) ? [ROWS_BEFORE[chunk] + place] : []));
}

// The next row with what is looked for from a row on, or the last one up to it, or undefined.
function findRow(sought, from, step) {
    const begin = placeOf(ROWS_BEFORE, Math.max(0, Math.min(ROW_COUNT - 1, from)));
    for (let chunk = begin; chunk >= 0 && chunk < ROWS.length; chunk += step) {
        const found = rowsWith(sought, chunk).filter((place) => (step > 0 ? place >= from : place <= from));
        if (found.length > 0) return found.at(step > 0 ? 0 : -1);
    }
    return undefined;
}

// The frame of a row, or for a comment that of the line after it.
function frameOfRow(place) {
    while (place < ROW_COUNT - 1 && rowAt(place).frame === undefined) place++;
    return rowAt(place).frame ?? LAST;
}

// Goes to the next row that has what the field says, or to the one before.
function search(step) {
    if (byId("text").value !== hits.sought.value) countHits();
    if (hits.sought.text === "") return;
    const isThere = foundRow !== undefined && frameOfRow(foundRow) === current;
    const row = findRow(hits.sought, (isThere ? foundRow : rowOf(current)) + step, step);
    if (row !== undefined) return show(frameOfRow(row), row);
    const isNone = hits.rows.length === 0 && hits.chunk === ROWS.length;
    hits.end = isNone ? "" : step > 0 ? "none after this line" : "none before this line";
    tellHits();
}

// ---- How many rows have it ---------------------------------------------------------------------------------------------------------

// For how many milliseconds rows are counted without a pause.
const COUNTS_FOR = 30;
// What is looked for; its rows in the chunks before one, from where they are still to be counted; how many have it as a whole word; what to
// say if there is no further one.
const hits = {sought: soughtFor(""), rows: [], asWord: 0, chunk: ROWS.length, end: ""};
let counting;

// Counts the rows that have what the field says now.
function countHits() {
    const sought = soughtFor(byId("text").value);
    Object.assign(hits, {sought, rows: [], asWord: 0, chunk: sought.text === "" ? ROWS.length : 0, end: ""});
    countOn();
}

function countOn() {
    clearTimeout(counting);
    const until = performance.now() + COUNTS_FOR;
    while (hits.chunk < ROWS.length && performance.now() < until) {
        for (const row of rowsWith(hits.sought, hits.chunk++)) {
            hits.rows.push(row);
            if (hasWord(hits.sought, rowAt(row))) hits.asWord++;
        }
    }
    if (hits.chunk < ROWS.length) counting = setTimeout(countOn, 0);
    tellHits();
}

// Says how many rows have what is looked for, and the place of the one that was found among them.
function tellHits() {
    const {sought, rows, asWord, chunk, end} = hits;
    const output = byId("hit");
    output.textContent = end;
    if (sought.text === "" || end) return;
    if (chunk < ROWS.length) output.textContent = `${rows.length} so far`;
    else tellPlace(output, rows, foundRow ?? -1);
    if (asWord > 0 && asWord < rows.length) output.textContent += ` (${asWord} as a word)`;
}
