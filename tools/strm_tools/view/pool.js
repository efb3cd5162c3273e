// The pool at a frame, as values.

const LETTERS = "abcdefghijklmnopqrstuvwxyz";
const [DATA, RUN, WISHES, FIRST_QUEUE] = [0, 1, 2, 3];
const partOfFlags = (queue) => FIRST_QUEUE + 2 * queue;
const partOfMessages = (queue) => FIRST_QUEUE + 2 * queue + 1;
const partOfRegister = (worker, letter) => FIRST_QUEUE + 2 * run.queues.length + 26 * worker + LETTERS.indexOf(letter);

function blockOf([number, data, place, kind, read, write, band, bytes]) {
    const capacity = run.classes[place][0];
    const places = {read, write, capacity, length: write - read, room: capacity - write};
    return {number, data, kind: run.kinds[kind], isHigh: kind >= run.ordinary, ...places, band, bytes};
}

const lengthOf = (message) => sum(message.map((block) => block.length));
const bandOf = ([first]) => (first.isHigh ? 0 : first.band);
const rankOf = ([first]) => (first.isHigh ? "high" : `band ${first.band}`);

// A band of a queue with so many bytes.
function bandRow(queue, band, bytes) {
    const [high, low] = queue.own.get(band) ?? [queue.high, queue.low];
    return {band, bytes, high, low, own: queue.own.has(band), full: bytes >= high, wanted: queue.wanted.includes(band)};
}

// The bands of a queue that have bytes, are wanted or have water marks of their own, from the greatest down.
function bandsOf(queue) {
    const counts = new Map([...queue.wanted, ...queue.own.keys()].map((band) => [band, 0]));
    for (const message of queue.messages) {
        const length = lengthOf(message);
        if (length > 0) counts.set(bandOf(message), (counts.get(bandOf(message)) ?? 0) + length);
    }
    const rows = Array.from(counts, ([band, bytes]) => bandRow(queue, band, bytes));
    return rows.sort((one, other) => other.band - one.band);
}

function queueOf(number, parts) {
    const [high, low, service, next] = run.queues[number];
    const [read, noenable, wanted, own] = parts.get(partOfFlags(number));
    const messages = parts.get(partOfMessages(number)).map((message) => message.map(blockOf));
    const enabled = Number(parts.get(RUN).includes(number));
    const queue = {number, high, low, service, next, read, noenable, enabled, wanted, messages};
    queue.own = new Map(own.map(([band, ...marks]) => [band, marks]));
    queue.bands = bandsOf(queue);
    queue.bytes = sum(messages.map(lengthOf));
    return queue;
}

// The registers of a worker that hold a message, with it.
function registersOf(worker, parts) {
    const rows = Array.from(run.registers[worker], (letter) => [letter, parts.get(partOfRegister(worker, letter)) ?? []]);
    return rows.filter(([, message]) => message.length > 0).map(([letter, message]) => [letter, message.map(blockOf)]);
}

// The pool at a frame. Nothing changes it later.
const poolAt = remembered(4, (frame) => {
    const parts = partsAt(frame);
    const queues = run.queues.map((_, number) => queueOf(number, parts));
    const workers = Array.from({length: run.workers}, (_, worker) => registersOf(worker, parts));
    const queued = queues.flatMap((queue) => queue.messages).flat();
    const held = workers.flat().flatMap(([, message]) => message);
    const references = new Map();
    for (const {data} of [...queued, ...held]) references.set(data, (references.get(data) ?? 0) + 1);
    const census = {free: run.mblks - queued.length - held.length, queued: queued.length, held: held.length};
    const lists = {data: [...parts.get(DATA)], run: [...parts.get(RUN)], wishes: [...parts.get(WISHES)]};
    return {queues, workers, references, census, ...lists};
});

// The report that strm would print of a pool.
function reportOf(pool) {
    const {free, queued, held} = pool.census;
    const orNone = (items) => items.join(" ") || "-";
    const ofBand = ({band, bytes, full, wanted}) => `band ${band} bytes=${bytes} full=${Number(full)} wanted=${Number(wanted)}`;
    const ofQueue = ({number, messages, bytes, read, noenable, enabled, bands}) => [
        `queue ${number} msgs=${messages.length} bytes=${bytes} read=${read} noenable=${noenable} enabled=${enabled}`,
        ...bands.filter(({bytes}) => bytes > 0).map(ofBand),
    ];
    return [
        `blocks free=${free} queued=${queued} held=${held} total=${run.mblks}`,
        ...run.classes.map(([size, total], place) => `data size=${size} free=${pool.data[place]} total=${total}`),
        ...pool.queues.flatMap(ofQueue),
        `run ${orNone(pool.run)}`,
        `wishes ${orNone(pool.wishes.map(([id, size]) => `${id}:${size}`))}`,
    ];
}

// ---- Names -----------------------------------------------------------------------------------------------------------------------

const labelOf = (queue) => run.labels[queue] ?? `queue ${queue}`;

// A queue by its number and, in parentheses, its label.
const numberAndLabel = (queue) => (run.labels[queue] === undefined ? queue : `${queue} (${run.labels[queue]})`);

// The queue before another one that is enabled once that one has room again, or none: the nearest with a service procedure.
function wakerOf(number) {
    const before = run.queues.findIndex(([, , , next]) => next === number);
    return before < 0 || run.queues[before][2] === "s" ? before : wakerOf(before);
}
