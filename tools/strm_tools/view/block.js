// The chosen block: its bytes, places and references.

// The number of the chosen block, or none.
let chosenNumber;

// All messages of a pool, with the name of the place where each is.
function messagesOf(pool) {
    const panels = panelsOf(pool, bandsShown(pool));
    return panels.flatMap(({messages}) => messages).map((message) => ({...message, place: placeName(message.home)}));
}

// The chosen block, with its message, if it is there.
function chosenIn(pool) {
    if (chosenNumber === undefined) return undefined;
    for (const message of messagesOf(pool)) {
        const place = message.blocks.findIndex(({number}) => number === chosenNumber);
        if (place >= 0) return {...message.blocks[place], message, place};
    }
    return undefined;
}

const hexDigits = (octet) => octet.toString(16).padStart(2, "0");
const letterOf = (octet) => (octet >= 32 && octet < 127 ? String.fromCharCode(octet) : ".");

// Bytes in lines of eight, in hexadecimal and as text.
function dump(octets) {
    const lines = [];
    for (let at = 0; at < octets.length; at += 8) {
        const part = [...octets.subarray(at, at + 8)];
        lines.push(`${String(at).padStart(4)}  ${part.map(hexDigits).join(" ").padEnd(23)}  ${part.map(letterOf).join("")}`);
    }
    return lines.join("\n");
}

// Where other blocks are that share a data block.
function sharersOf(pool, block) {
    const others = messagesOf(pool).flatMap((message) => message.blocks.map((other, place) => ({other, place, message})));
    return others.filter(({other}) => other.data === block.data && other.number !== block.number).map(({place, message}) => `block ${place} of ${nameOf(message)}`);
}

const nameOf = (message) => (message.home.startsWith("queue") ? `message ${message.label} on ${message.place}` : `the message in ${message.place}`);

function factsOf(pool, block) {
    const others = sharersOf(pool, block);
    const shown = others.slice(0, 6).join("; ") + (others.length > 6 ? `; and ${others.length - 6} more` : "");
    return [
        ["type", `${block.kind}, ${block.isHigh ? "high priority" : "ordinary"}`],
        ["band", block.band],
        ["data block", `d${block.data}, of ${block.capacity} bytes`],
        ["references", others.length > 0 ? `${others.length + 1} ${signOf(block.data)}: also ${shown}` : "1"],
        ["read place", block.read],
        ["write place", block.write],
        ["length", block.length],
        ["room", block.room],
    ];
}

// Shows the chosen block of a pool, or that it is gone.
function showBlock(pool) {
    const block = chosenIn(pool);
    byId("block").hidden = chosenNumber === undefined;
    byId("block-title").textContent = block ? `Block ${block.place} of ${nameOf(block.message)}` : "The chosen block is free at this frame";
    byId("block-facts").replaceChildren(...(block ? factsOf(pool, block) : []).map(([name, value]) => {
        const row = document.createElement("div");
        row.append(made("dt", name), made("dd", value));
        return row;
    }));
    byId("block-bytes").textContent = block ? dump(octetsOf(block.bytes, block.read, block.write)) || "no bytes" : "";
}

// Chooses a block by its number, or none.
function choose(number) {
    chosenNumber = number;
    show(current);
}

// Chooses the next block in the order of the picture, or the one before.
function chooseNext(step) {
    const numbers = Array.from(document.querySelectorAll("#picture .block"), (block) => Number(block.dataset.block));
    if (numbers.length === 0) return;
    const at = numbers.indexOf(chosenNumber);
    choose(numbers[at < 0 ? (step > 0 ? 0 : numbers.length - 1) : (at + step + numbers.length) % numbers.length]);
}

// A click on a block, or enter or space while it has the focus, chooses it, or none if it is chosen.
function chooseAt(event) {
    const block = event.target.closest("[data-block]");
    if (!block || ![undefined, "Enter", " "].includes(event.key)) return;
    event.preventDefault();
    choose(Number(block.dataset.block) === chosenNumber ? undefined : Number(block.dataset.block));
}

for (const kind of ["click", "keydown"]) byId("picture").addEventListener(kind, chooseAt);
byId("unchoose").onclick = () => choose(undefined);
