// Pieces of a picture. Each has a width, a height, and what is drawn from 0, 0 on.

// The width of a letter, the height of a row of text, and the room at each side of a word in a frame.
const LETTER = 7.4;
const ROW = 16;
const BESIDE = 3;

// An element to be drawn: its name, its attributes, and its children, which are such elements or texts. It costs less than one of the page.
class Drawn {
    constructor(name, attributes, children) {
        Object.assign(this, {name, attributes, children});
    }

    append(...children) {
        this.children.push(...children);
    }
}

const element = (name, attributes, ...children) => new Drawn(name, {...attributes}, children);

function moved(piece, x, y) {
    piece.drawn.attributes.transform = `translate(${x} ${y})`;
    return piece.drawn;
}

const textAt = (text, x = 0, kind = "") => element("text", {...(kind ? {class: kind} : {}), x, y: 12}, text);
const words = (text, kind = "") => ({width: text.length * LETTER, height: ROW, drawn: textAt(text, 0, kind)});

// Pieces side by side, in as many rows as the width makes of them.
function flow(pieces, width, gap = 6) {
    const drawn = element("g", {});
    let [x, y, tall, wide] = [0, 0, 0, 0];
    for (const piece of pieces) {
        if (x > 0 && x + piece.width > width) [x, y, tall] = [0, y + tall + gap, 0];
        drawn.append(moved(piece, x, y));
        wide = Math.max(wide, x + piece.width);
        tall = Math.max(tall, piece.height);
        x += piece.width + gap;
    }
    return {width: wide, height: y + tall, drawn};
}

// Pieces one below the other.
function stack(pieces, gap = 6) {
    const drawn = element("g", {});
    let [y, wide] = [0, 0];
    for (const piece of pieces.filter(({height}) => height > 0)) {
        drawn.append(moved(piece, 0, y > 0 ? (y += gap) : y));
        y += piece.height;
        wide = Math.max(wide, piece.width);
    }
    return {width: wide, height: y, drawn};
}

// A piece with room below it, up to a height.
const atLeast = (piece, height) => ({...piece, height: Math.max(piece.height, height)});

// The frame around what a line changed.
const markFrame = (width, height) => element("rect", {class: "mark", x: -1, y: -1, width: width + 2, height: height + 2, rx: 3});

// A word, framed if it is marked. It keeps room for a few letters more than it has.
function wordPiece(key, text, isMarked, letters = 0) {
    const width = text.length * LETTER + 2 * BESIDE;
    const drawn = element("g", {class: isMarked ? "field marked" : "field", "data-key": key}, ...(isMarked ? [markFrame(width, ROW)] : []), textAt(text, BESIDE));
    return {width: Math.max(width, letters * LETTER + 2 * BESIDE), height: ROW, drawn};
}

// A flag: filled if it is set, faint if not.
function flagPiece({key, name, value}, isMarked) {
    const size = {width: name.length * LETTER + 2 * BESIDE, height: ROW};
    const drawn = element("g", {class: `flag ${value ? "set" : "unset"}${isMarked ? " marked" : ""}`, "data-key": key});
    if (value) drawn.append(element("rect", {...size, rx: 3}));
    drawn.append(textAt(name, BESIDE), ...(isMarked ? [markFrame(size.width, size.height)] : []));
    return {...size, drawn};
}

// The letters that a field keeps room for, if its number changes often.
const DIGITS = {free: 4, queued: 4, held: 4, messages: 4, bytes: 4};

function fieldPiece(one, marks) {
    const {key, name, value} = one;
    if (typeof value === "boolean") return flagPiece(one, marks.has(key));
    return wordPiece(key, `${name} ${value}`, marks.has(key), typeof value === "number" ? name.length + 1 + (DIGITS[name] ?? 0) : 0);
}

// A word in a box.
function chip(text) {
    const size = {width: text.length * LETTER + 2 * BESIDE, height: ROW};
    return {...size, drawn: element("g", {class: "chip"}, element("rect", {...size, rx: 3}), textAt(text, BESIDE))};
}

// A list with its name in front, framed if it is marked. Of many items the first are shown.
function listPiece({key, name, items}, width, isMarked, most) {
    const shown = items.slice(0, most).map(chip);
    if (items.length > most) shown.push(words(`and ${items.length - most} more`));
    const inner = flow([words(name), ...(shown.length > 0 ? shown : [words("-")])], width - 2 * BESIDE, 4);
    const size = {width: inner.width + 2 * BESIDE, height: inner.height};
    const drawn = element("g", {class: isMarked ? "field marked" : "field", "data-key": key}, moved(inner, BESIDE, 0), ...(isMarked ? [markFrame(size.width, size.height)] : []));
    return {...size, drawn};
}

// A bar of parts side by side, each of a kind, out of a maximum; strokes at some numbers, the last one over the whole height.
function bar(width, {most, shares, strokes = []}) {
    const height = 8;
    const at = (number) => (Math.min(number, most) / Math.max(1, most)) * width;
    const drawn = element("g", {class: "bar"}, element("rect", {width, height}));
    let before = 0;
    for (const [number, kind] of shares) {
        drawn.append(element("rect", {class: kind, x: at(before), width: at(before + number) - at(before), height}));
        before += number;
    }
    strokes.forEach((number, k) => {
        const long = k === strokes.length - 1;
        drawn.append(element("line", {x1: at(number), x2: at(number), y1: long ? -3 : height / 2, y2: height + 3}));
    });
    return {width, height: height + 3, drawn};
}

// What the bytes before a read place are filled with, and the head of an arrow.
function definitions() {
    const size = {width: 4, height: 4, patternUnits: "userSpaceOnUse"};
    const hatched = element("pattern", {id: "hatched", ...size}, element("path", {d: "M0 4L4 0"}));
    const head = element("marker", {id: "head", viewBox: "0 0 8 8", refX: 7, refY: 4, markerWidth: 9, markerHeight: 9, markerUnits: "userSpaceOnUse", orient: "auto-start-reverse"}, element("path", {d: "M0 0L8 4L0 8z"}));
    return element("defs", {}, hatched, head);
}

// ---- Into the page -------------------------------------------------------------------------------------------------------------------

// The node of an element, with all that is in it, or of a text.
function nodeOf(drawn) {
    if (!(drawn instanceof Drawn)) return document.createTextNode(drawn);
    const node = document.createElementNS("http://www.w3.org/2000/svg", drawn.name);
    for (const [key, value] of Object.entries(drawn.attributes)) node.setAttribute(key, value);
    node.append(...drawn.children.map(nodeOf));
    return node;
}

// Whether the node of one can become that of another: both are texts, or elements of a name with the same attributes in the same order.
function isAlike(before, after) {
    if (!(before instanceof Drawn) || !(after instanceof Drawn)) return !(before instanceof Drawn) && !(after instanceof Drawn);
    const [old, now] = [before, after].map(({attributes}) => Object.keys(attributes));
    return before.name === after.name && old.length === now.length && old.every((key, place) => key === now[place]);
}

// Makes the node of one that of another, which is alike. What is the same stays, as a browser lays out anew only what changes.
function patch(node, before, after) {
    if (!(after instanceof Drawn)) {
        if (String(before) !== String(after)) node.data = after;
        return;
    }
    for (const [key, value] of Object.entries(after.attributes)) {
        if (before.attributes[key] !== value) node.setAttribute(key, value);
    }
    patchChildren(node, before.children, after.children);
}

// Of children that are not alike, those go that are too many; those come that are missing; others are replaced.
function patchChildren(node, before, after) {
    let [place, child] = [0, node.firstChild];
    const goOn = () => {
        place++;
        child = child.nextSibling;
    };
    after.forEach((one, at) => {
        const surplus = () => before.length - place - (after.length - at);
        while (surplus() > 0 && !isAlike(before[place], one)) {
            const gone = child;
            goOn();
            gone.remove();
        }
        if (place < before.length && isAlike(before[place], one)) {
            patch(child, before[place], one);
            goOn();
        } else {
            const come = node.insertBefore(nodeOf(one), child);
            if (surplus() < 0) return;
            child.remove();
            child = come;
            goOn();
        }
    });
    for (; place < before.length; place++) node.lastChild.remove();
}
