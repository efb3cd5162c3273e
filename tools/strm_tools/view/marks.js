// What the picture shows of a pool: panels of fields and messages. The picture draws them, and marks what of them differs between two
// frames, so marks and picture agree.

// If a queue has no more bands than this to show over the whole run, all of them always have their rows. Otherwise those have one that have
// bytes or are wanted.
const MOST_BANDS = 8;
// The letters of more registers than this have no spaces between them, so that they fit into a panel.
const MOST_PARTED_LETTERS = 12;

// A field has a name and a value; the value of a flag is true or false.
const field = (key, name, value) => ({key, name, value});
const listField = (key, name, items) => ({...field(key, name, items.join(", ") || "-"), items});

// ---- Panels ----------------------------------------------------------------------------------------------------------------------

function poolView(pool) {
    const census = Object.entries(pool.census);
    const blocks = {
        label: `blocks ${run.mblks}`,
        fields: census.map(([kind, count]) => field(`pool ${kind}`, kind, count)),
        bar: {most: run.mblks, shares: census.map(([kind, count]) => [count, kind])},
    };
    const classes = run.classes.map(([size, total], place) => ({
        label: `data of ${size} bytes`,
        fields: [field(`pool data ${place}`, "free", `${pool.data[place]} of ${total}`)],
        bar: {most: total, shares: [[pool.data[place], "free"]]},
    }));
    const wishes = pool.wishes.map(([id, size]) => `id ${id} size ${size}`);
    const lists = [listField("pool run", "run list", pool.run.map(labelOf)), listField("pool wishes", "wishes", wishes)];
    return {key: "pool", title: "pool", rows: [blocks, ...classes], lists, messages: []};
}

function bandView(key, {band, bytes, high, low, own, full, wanted}) {
    const fields = Object.entries({bytes, low, high, own, full, wanted}).map(([name, value]) => field(`${key} ${name}`, name, value));
    return {label: `band ${band}`, fields, bar: {most: Math.max(bytes, high), shares: [[bytes, "used"]], strokes: [low, high]}};
}

function queueView(queue, bands) {
    const key = `queue ${queue.number}`;
    const flags = ["enabled", "read", "noenable"].map((name) => field(`${key} ${name}`, name, Boolean(queue[name])));
    const counts = [field(`${key} messages`, "messages", queue.messages.length), field(`${key} bytes`, "bytes", queue.bytes)];
    const rows = bands.map((band) => bandView(`${key} band ${band}`, queue.bands.find((row) => row.band === band) ?? bandRow(queue, band, 0)));
    const messages = queue.messages.map((blocks, place) => messageView(key, place, blocks));
    const note = `${labelOf(queue.number)}${queue.next === "-" ? "" : `, before ${labelOf(queue.next)}`}`;
    return {key, title: labelOf(queue.number), note, rows: [{label: "", fields: flags}, {label: "", fields: counts}], bands: rows, lists: [], messages};
}

function workerView(worker, registers) {
    const key = `worker ${worker}`;
    const holds = new Set(registers.map(([letter]) => letter));
    const empty = Array.from(run.registers[worker]).filter((letter) => !holds.has(letter));
    const letters = empty.join(empty.length > MOST_PARTED_LETTERS ? "" : " ") || "-";
    const rows = run.registers[worker] === "" ? [] : [{label: "", fields: [field(`${key} empty`, "empty registers", letters)]}];
    return {key, title: key, rows, lists: [], messages: registers.map(([letter, blocks]) => messageView(`${key} ${letter}`, letter, blocks))};
}

// A message at a home, a queue or a register. Its first block says which message it is.
function messageView(home, label, blocks) {
    return {key: `${home}/${blocks[0].number}`, home, label, rank: rankOf(blocks), isHigh: blocks[0].isHigh, blocks};
}

const keyOf = (message, block) => `${message.key}/${block.number}`;

function blockFields(key, block, references) {
    return [
        field(`${key} type`, "type", block.kind),
        field(`${key} length`, "len", block.length),
        field(`${key} room`, "room", block.room),
        field(`${key} data`, "data block", block.data),
        field(`${key} references`, "references", references.get(block.data)),
    ];
}

// The bands of each queue that a frame shows.
const bandsShown = (pool) => pool.queues.map(({number, bands}) => {
    const busy = bands.filter(({bytes, wanted}) => bytes > 0 || wanted).map(({band}) => band);
    return run.bands[number].length > MOST_BANDS ? busy : run.bands[number];
});

function panelsOf(pool, bands) {
    return [
        poolView(pool),
        ...pool.queues.map((queue) => queueView(queue, bands[queue.number])),
        ...pool.workers.map((registers, worker) => workerView(worker, registers)),
    ];
}

const fieldsOf = (panel) => [...[...panel.rows, ...(panel.bands ?? [])].flatMap(({fields}) => fields), ...panel.lists];

// ---- What differs ------------------------------------------------------------------------------------------------------------------

// What differs between two pools with these panels: for each key of a field, a message or a block, what it was before; for each panel, true.
function marksOf(before, after, old, panels) {
    const marks = new Map();
    panels.forEach((panel, place) => {
        const size = marks.size;
        markFields(marks, fieldsOf(old[place]), fieldsOf(panel));
        const messages = new Map(old[place].messages.map((message) => [message.key, message]));
        for (const message of panel.messages) markMessage(marks, messages.get(message.key), message, before, after);
        if (marks.size > size) marks.set(panel.key, true);
    });
    return marks;
}

// Marks a message that came, or what differs in it.
function markMessage(marks, before, message, {references: oldReferences}, {references}) {
    if (before === undefined) {
        marks.set(message.key, "came");
        return;
    }
    const blocks = new Map(before.blocks.map((block) => [block.number, block]));
    const isSame = blocks.size === message.blocks.length && message.blocks.every((block, place) => block.number === before.blocks[place].number);
    if (!isSame || before.rank !== message.rank) marks.set(message.key, before);
    for (const block of message.blocks) {
        const old = blocks.get(block.number);
        const key = keyOf(message, block);
        if (old === undefined) marks.set(key, "came");
        else if (!looksSame(old, block) || oldReferences.get(old.data) !== references.get(block.data)) {
            markFields(marks, blockFields(key, old, oldReferences), blockFields(key, block, references));
        }
    }
}

const looksSame = (one, other) => ["kind", "length", "room", "data"].every((name) => one[name] === other[name]);

function markFields(marks, before, after) {
    const values = new Map(before.map(({key, value}) => [key, value]));
    for (const {key, value} of after) if (values.get(key) !== value) marks.set(key, values.get(key));
}
