// The picture of a pool: where its panels are, and the arrows between queues. Nothing moves from frame to frame, unless all blocks are shown.

const GAP = 12;
// The room at the left of queues for arrows that pass others, and between queues for those that don't.
const GUTTER = 26;
const BETWEEN_QUEUES = 26;
// The least width of a column.
const COLUMN = Math.max(...run.most.queues, 1) > 60 ? 560 : 330;

// ---- Streams -----------------------------------------------------------------------------------------------------------------------

// The queues along each line, from one that no queue leads to.
function linesOfQueues() {
    const led = new Set(run.queues.map(([, , , next]) => next));
    const follow = (queue) => [queue, ...(run.queues[queue][3] === "-" ? [] : follow(run.queues[queue][3]))];
    return run.queues.flatMap((_, queue) => (led.has(queue) ? [] : [follow(queue)]));
}

// The queues of each module, with its label. Other queues are by themselves.
function groupsOfQueues() {
    const taken = new Set();
    const groups = run.modules.map(([label, queues]) => {
        const own = queues.filter((queue) => queue < run.queues.length && !taken.has(queue));
        own.forEach((queue) => taken.add(queue));
        return {label, queues: own};
    });
    const single = run.queues.flatMap((_, queue) => (taken.has(queue) ? [] : [{label: "", queues: [queue]}]));
    return [...groups, ...single].filter(({queues}) => queues.length > 0).sort((one, other) => Math.min(...one.queues) - Math.min(...other.queues));
}

const GROUPS = groupsOfQueues();

// Streams: lines of queues that modules join. Each has its lines, and its groups in order.
function streamsOfQueues() {
    const streams = linesOfQueues().map((line) => ({lines: [line]}));
    for (const {queues} of GROUPS) {
        const [first, ...others] = streams.filter(({lines}) => lines.some((line) => line.some((queue) => queues.includes(queue))));
        for (const other of others) first.lines.push(...streams.splice(streams.indexOf(other), 1)[0].lines);
    }
    return streams.map(({lines}) => ({lines, groups: GROUPS.filter(({queues}) => lines.flat().includes(queues[0]))}));
}

const STREAMS = streamsOfQueues();

// ---- Arrows ------------------------------------------------------------------------------------------------------------------------

// The points of an arrow between two panels: straight if they are neighbours in a column, otherwise along the gutter of the second.
function routeOf(one, other, offset) {
    const x = one.x + 30 + offset * 70;
    if (one.x === other.x && Math.abs(other.at - one.at) === 1) return other.y > one.y ? [[x, one.y + one.height], [x, other.y]] : [[x, one.y], [x, other.y + other.height]];
    const gutter = other.x - 9 - offset * 9;
    const [begin, end] = [one.y + 18 + offset * 12, other.y + 18 + offset * 12];
    if (one.x === other.x) return [[one.x, begin], [gutter, begin], [gutter, end], [other.x, end]];
    const above = one.y - 9 + offset * 4;
    return [[one.x + 20, one.y], [one.x + 20, above], [gutter, above], [gutter, end], [other.x, end]];
}

// An arrow of a kind from one queue to another. It has room for its label between panels; another one has it beside its beginning, if it is lit.
function arrow(from, to, places, kind, offset, label) {
    const route = routeOf(places.get(from), places.get(to), offset);
    const isShort = route.length === 2;
    const [[x, y], [, end]] = route.slice(isShort ? 0 : -3);
    const isUp = end < y;
    const beside = {transform: `translate(${x - 5} ${isUp ? y - 8 : y + 8}) rotate(-90)`, "text-anchor": isUp ? "start" : "end"};
    const text = isShort ? {x: x + 6, y: (y + end) / 2 + 4} : beside;
    const path = element("path", {d: `M${route.map((point) => point.join(" ")).join("L")}`, "marker-end": "url(#head)"});
    return element("g", {class: `arrow ${kind}${isShort ? "" : " long"}`, "data-arrow": `${from} ${to}`}, path, element("text", text, label));
}

// The arrows of a stream: to the next queue, and from each queue to the one that is enabled once this one has room again.
function arrowsOf(lines, places) {
    return lines.flat().flatMap((queue) => {
        const next = run.queues[queue][3];
        const waker = wakerOf(queue);
        return [
            ...(next === "-" ? [] : [arrow(queue, next, places, "next", 0, "next")]),
            ...(waker < 0 ? [] : [arrow(queue, waker, places, "back", 1, "back-enables")]),
        ];
    });
}

// The arrows along `next` from one queue to another.
const pathOf = (from, to) => (from === to ? [] : [`${from} ${run.queues[from][3]}`, ...pathOf(run.queues[from][3], to)]);

// Lights the arrows that lead to the queue that a line found full, or to those that it back-enabled.
function lightArrows(line) {
    const named = Number(line.command.split(" ")[1]);
    const asked = askedIn(line);
    const back = line.events.filter((event) => event.startsWith("B")).map((event) => `${named} ${event.slice(1)}`);
    const lit = asked ? pathOf(named, asked.queue) : back;
    for (const node of document.querySelectorAll("#picture .arrow")) node.classList.toggle("lit", lit.includes(node.dataset.arrow));
}

// ---- Places ------------------------------------------------------------------------------------------------------------------------

const lineOf = (lines, queue) => lines.findIndex((line) => line.includes(queue));
const BOX = 8;
const isInModule = (queue) => GROUPS.some(({label, queues}) => label && queues.includes(queue));
const widthOfQueue = (queue, width) => width - GUTTER - (isInModule(queue) ? BOX : 0);

// Notes the places of a group of queues, side by side, or one below the other if there is no room. Returns where it ends.
function placeGroup({label, queues}, lines, columns, width, top, pieces, places) {
    const ordered = [...queues].sort((one, other) => lineOf(lines, one) - lineOf(lines, other) || one - other);
    const tops = new Array(columns).fill(top + (label ? 26 : 0));
    ordered.forEach((queue, place) => {
        const column = lines.length <= columns ? lineOf(lines, queue) : place % columns;
        const {width: wide, height} = pieces.get(`queue ${queue}`);
        const x = column * (width + GAP) + GUTTER;
        const at = [...places.values()].filter((other) => other.x === x).length;
        places.set(queue, {x, y: tops[column], width: wide, height, at});
        tops[column] += height + BETWEEN_QUEUES;
    });
    return Math.max(...tops) - BETWEEN_QUEUES + (label ? BOX : 0);
}

// The box around the queues of a module.
function groupBox({label, queues}, places, top, bottom, width) {
    const lefts = queues.map((queue) => places.get(queue).x);
    const x = Math.min(...lefts) - BOX;
    const wide = Math.max(...lefts) + width - GUTTER - x;
    const title = element("text", {class: "title", x: x + wide - 8, y: top + 17, "text-anchor": "end"}, `module ${label}`);
    return element("g", {class: "module"}, element("rect", {x, y: top, width: wide, height: bottom - top, rx: 6}), title);
}

// The panels of a stream, with its arrows, in so many columns.
function streamPiece({lines, groups}, columns, width, pieces) {
    const places = new Map();
    const boxes = [];
    let top = 0;
    for (const group of groups) {
        const bottom = placeGroup(group, lines, columns, width, top, pieces, places);
        if (group.label) boxes.push(groupBox(group, places, top, bottom, width));
        top = bottom + BETWEEN_QUEUES;
    }
    const panels = Array.from(places, ([queue, {x, y}]) => moved(pieces.get(`queue ${queue}`), x, y));
    const drawn = element("g", {class: "stream"}, ...boxes, ...panels, ...arrowsOf(lines, places));
    return {width: columns * (width + GAP) - GAP, height: top - BETWEEN_QUEUES, drawn, places};
}

// The first place for a piece over so many columns, among some columns, as far up as there is one.
function placeFor(heights, {span, begin = 0, end = heights.length}) {
    const columns = heights.map((_, column) => column).filter((column) => column >= begin && column + span <= end);
    const tops = columns.map((column) => Math.max(...heights.slice(column, column + span)));
    const top = Math.min(...tops);
    return {column: columns[tops.indexOf(top)], top};
}

// ---- Drawing -----------------------------------------------------------------------------------------------------------------------

// Pieces in the order in which they are placed, each with how many columns it needs, and among which. The first column is for the pool
// and worker 0, if the streams have enough room beside it.
function inOrder(pieces, columns, width) {
    const streams = STREAMS.map((stream) => {
        const span = Math.min(columns, stream.lines.length);
        return {span, piece: streamPiece(stream, span, width, pieces)};
    });
    const keys = ["pool", ...Array.from({length: run.workers}, (_, worker) => `worker ${worker}`)];
    const [pool, first, ...others] = keys.map((key) => ({span: 1, piece: pieces.get(key)}));
    if (columns === 1) return [pool, ...streams, first, ...others];
    if (streams.some(({span}) => span === columns)) return [pool, first, ...streams, ...others];
    if (streams.length > 3 * (columns - 1)) return [pool, ...streams, first, ...others];
    return [{...pool, end: 1}, {...first, end: 1}, ...streams.map((stream) => ({...stream, begin: 1})), ...others];
}

// The pool, the streams and the workers in columns.
function placeAll(pieces, columns, width) {
    const heights = new Array(columns).fill(0);
    const drawn = inOrder(pieces, columns, width).map(({piece, ...among}) => {
        const {column, top} = placeFor(heights, among);
        heights.fill(top + piece.height + GAP, column, column + among.span);
        return moved(piece, column * (width + GAP), top);
    });
    byId("picture").replaceChildren(...[definitions(), ...drawn].map(nodeOf));
    byId("picture").setAttribute("height", Math.max(...heights) - GAP);
    drawnPicture.nodes = new Map(Array.from(byId("picture").querySelectorAll(".panel"), (node) => [node.dataset.panel, node]));
}

// What is in the picture: the sizes of all panels, what was drawn of each, and its node.
const drawnPicture = {sizes: "", drawn: new Map(), nodes: new Map()};

// Draws the panels of a pool. If all of them have the size that they had, only what differs in them is changed.
function draw(line, pool, panels, marks, chosen) {
    const columns = Math.max(1, Math.floor((sizes.picture + GAP) / (COLUMN + GAP)));
    const width = (sizes.picture - GAP * (columns - 1)) / columns;
    const drawing = {marks, references: pool.references, chosen, asked: askedIn(line), showsAll: byId("all").checked};
    const pieces = new Map(panels.map((panel) => {
        const [kind, number] = panel.key.split(" ");
        return [panel.key, pieceOf(panel, drawing, kind === "queue" ? widthOfQueue(Number(number), width) : width)];
    }));
    const all = JSON.stringify([columns, width, ...Array.from(pieces.values(), ({width: wide, height}) => [wide, height])]);
    if (all === drawnPicture.sizes) changePanels(pieces);
    else placeAll(pieces, columns, width);
    drawnPicture.sizes = all;
    drawnPicture.drawn = new Map(Array.from(pieces, ([key, {drawn}]) => [key, drawn]));
    lightArrows(line);
    byId("picture").setAttribute("aria-label", `The pool at frame ${current}`);
}

// From above the first to below the last of some nodes in a panel.
function spanOf(panel, selector) {
    const boxes = Array.from(drawnPicture.nodes.get(panel).querySelectorAll(selector), (node) => node.getBoundingClientRect());
    return {top: Math.min(...boxes.map(({top}) => top)) - GAP, bottom: Math.max(...boxes.map(({bottom}) => bottom)) + GAP};
}

// How far to scroll so that all spans are in view or, if they do not fit, as many as do, the first ones first.
function offsetTo(spans, {top, bottom}) {
    const first = Math.min(...spans.map((span) => span.top)) - top;
    const last = Math.max(...spans.map((span) => span.bottom)) - bottom;
    if (spans.length > 1 && last > first) return offsetTo(spans.slice(0, -1), {top, bottom});
    return first < 0 ? first : Math.max(0, Math.min(first, last));
}

// What of queues a line with a rule on a band is to show: the band, the head of its queue, and the head of each queue that it enables.
function spansOfRule({queue, band}, events) {
    const ofBand = `[data-key^="queue ${queue} band ${band} "]`;
    const enabled = events.filter((event) => event.startsWith("B")).map((event) => spanOf(`queue ${event.slice(1)}`, ".title, .flag"));
    const own = `queue ${queue}`;
    return [spanOf(own, ofBand), ...enabled, spanOf(own, `.title, ${ofBand}`)].filter(({top}) => top < Infinity);
}

// What scrolls the picture, and the part of the window in which it is seen: the page below its head, or a part beside the list. The facts of a
// chosen block cover its end.
function seenPart() {
    const isPart = getComputedStyle(byId("pool")).overflowY === "auto";
    const {top, bottom} = isPart ? byId("pool").getBoundingClientRect() : {top: document.querySelector("header").offsetHeight, bottom: innerHeight};
    return {scrolls: isPart ? byId("pool") : document.scrollingElement, top, bottom: bottom - byId("block").offsetHeight};
}

// Brings into view what the line changed in queues, or else in registers, as far as it is not. Of several changed panels one is enough. A page
// stays where somebody types in it.
function showChanged(line, marks) {
    const about = bandIn(line);
    changedPanels = Array.from(drawnPicture.nodes.keys()).filter((panel) => panel !== "pool" && marks.has(panel));
    const spans = about ? spansOfRule(about, line.events) : changedPanels.map((panel) => spanOf(panel, ".title, .marked"));
    const {scrolls, ...seen} = seenPart();
    const isOneSeen = spans.some((span) => offsetTo([span], seen) === 0);
    const isTyped = scrolls === document.scrollingElement && document.activeElement.matches("textarea");
    if (!isTyped && spans.length > 0 && (about || !isOneSeen)) scrolls.scrollTop += offsetTo(about ? spans : spans.slice(0, 1), seen);
    showBeyond();
}

// The panels, but the pool's, that the frame's line changed.
let changedPanels = [];

// Names the changed panels whose heads are out of view, with an arrow to them, at the beginning of what is in view.
function showBeyond() {
    const {top, bottom} = seenPart();
    const buttons = changedPanels.slice(0, MOST_ITEMS).flatMap((panel) => {
        const head = drawnPicture.nodes.get(panel).querySelector(".title");
        const {top: above, bottom: below} = head.getBoundingClientRect();
        if (above >= top && below <= bottom) return [];
        return [made("button", `${above < top ? "↑" : "↓"} ${head.textContent}`, {type: "button", onclick: () => head.scrollIntoView({block: "center"})})];
    });
    byId("beyond").style.top = byId("pool") === seenPart().scrolls ? "0" : `${top}px`;
    byId("beyond").replaceChildren(...buttons);
}

// Changes the nodes of panels that show something else. They stay where they are.
function changePanels(pieces) {
    for (const [key, {drawn}] of pieces) {
        const old = drawnPicture.drawn.get(key);
        if (old === drawn) continue;
        drawn.attributes.transform = old.attributes.transform;
        patch(drawnPicture.nodes.get(key), old, drawn);
    }
}
