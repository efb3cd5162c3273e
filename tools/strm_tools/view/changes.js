// What a line changed, in sentences: what the picture marks, and why. A sentence is a text, or a list of texts and links to frames.

// The most sentences that are shown.
const MOST_SENTENCES = 12;

const howMany = (number, what) => `${number} ${what}${number === 1 ? "" : "s"}`;

// Where a message is: a queue, or a register.
function placeName(home) {
    const [kind, number, letter] = home.split(" ");
    if (kind === "queue") return labelOf(Number(number));
    return run.workers > 1 ? `register ${letter} of worker ${number}` : `register ${letter}`;
}

const NAMES_QUEUE = new RegExp(`^(?:${run.queueWords.join("|")}) (\\d+)`);

// The label of the queue that a line names, or that `service` returned, if it has one.
function labelIn({command, reply}) {
    const named = NAMES_QUEUE.exec(command) ?? /^queue (\d+)$/.exec(reply);
    return named ? run.labels[named[1]] ?? "" : "";
}

// ---- What happened -----------------------------------------------------------------------------------------------------------------

// Why a queue was enabled, by the word of the line. For back-enabling the line has a rule.
const REASONS = {qenable: "by qenable", putq: "by a message", putbq: "by a message", insq: "by a message"};

function tellEvent(event, line) {
    const [queue, band] = event.slice(1).split(".");
    if (event[0] === "F") return [`Band ${band} of ${labelOf(queue)} is now full.`];
    if (event[0] === "E") return [`${labelOf(queue)} is enabled ${REASONS[line.command.split(" ")[0]]}.`];
    return [];
}

// ---- Why ---------------------------------------------------------------------------------------------------------------------------

// The band of a queue that the rule of a line is about: it is full, or a wanted mark of it was cleared.
const bandIn = ({why}) => (why?.Q && why.B ? {queue: Number(why.Q), band: Number(why.B)} : undefined);

// The queue and the band that a `bcanput` found full.
const askedIn = (line) => (line.reply === "no" ? bandIn(line) : undefined);

// The sentence of a line's rule, with its numbers and the labels of queues.
function sentenceOf({rule, ...numbers}) {
    const value = (_, name) => (name === "Q" || name === "W" ? numberAndLabel(numbers[name]) : numbers[name]);
    return run.rules[rule].replace(/\{(\w+)\}/g, value).replaceAll("`", "");
}

const linkTo = (frame, text) => ({frame, text: `${text} line ${lineAt(frame).number}`});

// When the wanted mark of a band was set that is set at a frame, or that the frame cleared, and when it was cleared, if ever.
function waitOf({queue, band}, frame) {
    const {frames, values} = stepsOf(`wanted ${queue} ${band}`);
    const place = placeOf(frames, frame);
    const begin = values[place] === 1 ? place : place - 1;
    return {begin: frames[begin], end: frames[begin + 1]};
}

// Which queue a `bcanput` asked, if the line names another one, and what comes of it that the band was full.
function tellAsked({queue, band}, line, frame) {
    const named = Number(line.command.split(" ")[1]);
    const other = queue === named ? [] : [`bcanput asked queue ${numberAndLabel(queue)}, as queue ${numberAndLabel(named)} has no service procedure.`];
    const {begin, end} = waitOf({queue, band}, frame);
    const since = begin < frame ? [[`Band ${band} is `, linkTo(begin, "wanted since"), "."]] : [];
    if (end === undefined) return [...other, ...since, `Band ${band} stays wanted to the end of the run.`];
    const waker = lineAt(end).events.find((event) => event.startsWith("B"))?.slice(1);
    if (waker === undefined) return [...other, ...since, [`Band ${band} is `, linkTo(end, "wanted no longer at"), ", which enables no queue."]];
    return [...other, ...since, [`Queue ${numberAndLabel(waker)} is `, linkTo(end, "enabled again at"), "."]];
}

// Since when the bands of a queue were wanted that are wanted no longer.
function tellCleared(queue, frame, before, after) {
    const cleared = before.queues[queue].wanted.filter((band) => !after.queues[queue].wanted.includes(band));
    return cleared.map((band) => [`Band ${band} was `, linkTo(waitOf({queue, band}, frame).begin, "wanted since"), ", where bcanput said no."]);
}

// Why a line was refused, found a band full, or enabled a queue as it cleared a wanted mark.
function tellWhy(line, frame, before, after) {
    if (!line.why) return [];
    const [about, asked] = [bandIn(line), askedIn(line)];
    const sentence = sentenceOf(line.why);
    const isBack = line.events.some((event) => event.startsWith("B"));
    const head = isBack ? "Back-enabling" : about && !asked ? "" : line.reply.split(" ").at(-1);
    const first = head ? `${head}: ${sentence[0].toLowerCase()}${sentence.slice(1)}` : sentence;
    if (asked) return [first, ...tellAsked(asked, line, frame)];
    return about ? [first, ...tellCleared(about.queue, frame, before, after)] : [first];
}

const describe = ({rank, blocks}) => `${rank}, ${howMany(lengthOf(blocks), "byte")}`;

// Where messages came from and went to. Each is known by its first block.
function tellMoves(old, now, marks) {
    const before = new Map(old.map((message) => [message.blocks[0].number, message]));
    const after = new Set(now.map((message) => message.blocks[0].number));
    const came = now.filter(({key}) => marks.get(key) === "came").map((message) => {
        const from = before.get(message.blocks[0].number);
        return `${from ? `Message: ${placeName(from.home)} → ` : "New message: "}${placeName(message.home)} (${describe(message)}).`;
    });
    const gone = old.filter((message) => !after.has(message.blocks[0].number));
    return [...came, ...gone.map((message) => `The message of ${placeName(message.home)} is gone (${describe(message)}).`)];
}

// ---- What differs ------------------------------------------------------------------------------------------------------------------

const FLAGS = {
    enabled: ["no longer enabled", "now enabled"],
    read: ["want-to-read mark cleared", "want-to-read mark set"],
    noenable: ["enabling by messages on", "enabling by messages off"],
    own: ["without water marks of its own", "now with water marks of its own"],
    full: ["no longer full", "now full"],
    wanted: ["no longer wanted", "now wanted"],
};

const tellField = ({key, name, value}, marks) => (name in FLAGS ? FLAGS[name][Number(value)] : `${name} ${marks.get(key)} → ${value}`);

// A sentence on the marked fields, if any.
function tellFields(title, fields, marks) {
    const parts = fields.filter(({key}) => marks.has(key)).map((one) => tellField(one, marks));
    return parts.length > 0 ? [`${title}: ${parts.join(", ")}.`] : [];
}

// Sentences on a message that stayed where it is.
function tellMessage(message, marks, references) {
    const before = marks.get(message.key);
    if (before === "came") return [];
    const was = before ? [`${before.rank}, ${howMany(before.blocks.length, "block")} → ${message.rank}, ${howMany(message.blocks.length, "block")}.`] : [];
    const ofBlocks = message.blocks.flatMap((block, place) => {
        const key = keyOf(message, block);
        return marks.get(key) === "came" ? [`block ${place}: new here.`] : tellFields(`block ${place}`, blockFields(key, block, references), marks);
    });
    return [...was, ...ofBlocks].map((part) => `Message in ${placeName(message.home)}, ${part}`);
}

function tellPanel(panel, marks, references) {
    const fields = panel.rows.flatMap(({label, fields: own}) => own.map((one) => ({...one, name: label.startsWith("data") ? `${label} ${one.name}` : one.name})));
    const shown = [...fields, ...panel.lists].filter(({key}) => !key.endsWith(" empty"));
    return [
        ...tellFields(panel.title, shown, marks),
        ...(panel.bands ?? []).flatMap(({label, fields: own}) => tellFields(`${panel.title}, ${label}`, own, marks)),
        ...panel.messages.flatMap((message) => tellMessage(message, marks, references)),
    ];
}

// What a line changed, the most important first: events, messages, queues, registers, and the pool.
function tellChanges(line, marks, references, old, panels) {
    const [pool, ...others] = panels.map((panel) => (marks.has(panel.key) ? tellPanel(panel, marks, references) : []));
    const messages = (shown) => shown.flatMap((panel) => panel.messages);
    const events = line.events.flatMap((event) => tellEvent(event, line));
    return [...events, ...tellMoves(messages(old), messages(panels), marks), ...others.flat(), ...pool];
}

// What to say of a frame: why, and what changed.
function sentencesOf(frame, line, before, after, marks, old, panels) {
    if (frame === 0) return ["The pool opens."];
    const changed = tellChanges(line, marks, after.references, old, panels);
    const nothing = changesAt(frame).length > 0 ? "Nothing that the picture shows." : "Nothing changed.";
    const all = [...tellWhy(line, frame, before, after), ...(changed.length > 0 ? changed : [nothing])];
    return all.length > MOST_SENTENCES ? [...all.slice(0, MOST_SENTENCES - 1), `And ${all.length - MOST_SENTENCES + 1} more.`] : all;
}

// A sentence as an item of a list.
function sentenceNode(sentence) {
    const node = made("li", "");
    node.append(...[sentence].flat().map((part) => (part.frame === undefined ? part : made("a", part.text, {href: `#frame=${part.frame}`}))));
    return node;
}
