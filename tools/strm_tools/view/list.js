// The list of lines. Only rows in view are in the page, so that long runs cost nothing.

const ROW_HEIGHT = 22;
// Browsers do not make an element of any height. In a longer list, a point of the scroll bar means more rows.
const MOST_HEIGHT = 8_000_000;
const list = byId("list");
const listRows = byId("list-rows");
const fullHeight = ROW_COUNT * ROW_HEIGHT;
const shownHeight = Math.min(fullHeight, MOST_HEIGHT);
listRows.style.height = `${shownHeight}px`;

// How far the rows move for each point of the scroll bar.
const scrollScale = () => (fullHeight === shownHeight ? 1 : (fullHeight - sizes.list) / (shownHeight - sizes.list));

// ---- Rows --------------------------------------------------------------------------------------------------------------------------

const isRefused = ({reply}) => /^(refused|empty|taken)/.test(reply);

// What a line made happen, in a few words.
function tagOf(event) {
    const [queue, band] = event.slice(1).split(".");
    if (event[0] === "F") return `fills ${labelOf(queue)} band ${band}`;
    return `${event[0] === "B" ? "back-enables" : "enables"} ${labelOf(queue)}`;
}

// What a line is marked with: a kind and a text for each mark.
function tagsOf(row) {
    const asked = askedIn(row);
    const full = asked ? [["tag N", `${labelOf(asked.queue)} band ${asked.band} is full`]] : [];
    return [...full, ...row.events.map((event) => [`tag ${event[0]}`, tagOf(event)])];
}

// What a row shows: a kind and a text for each of its cells.
function cellsOfRow(row) {
    if (row.kind === "comment" || row.kind === "caller") return [[row.kind, row.text]];
    if (row.kind === "header") return [["header", row.text], ...(row.queue ? [["label", labelOf(row.queue)]] : [])];
    if (row.kind === "opening") return [["frame", "0"], ["command", "the pool opens"]];
    const cells = [
        ["frame", row.frame],
        ["place", `${row.worker}:${row.number}`],
        ["command", row.command],
        [isRefused(row) ? "reply refused" : "reply", row.reply],
        ...tagsOf(row),
        ["label", labelIn(row)],
    ];
    return cells.filter(([, text]) => text !== "");
}

// A new row, which is still empty.
function emptyRow() {
    const node = made("div", "");
    for (const [name, value] of Object.entries({role: "option", "aria-setsize": ROW_COUNT, "aria-selected": false})) node.setAttribute(name, value);
    return node;
}

// Shows in a row what is at a place of the list. Its cells stay, as a browser lays out changed texts faster than new elements.
function fillRow(node, place) {
    const row = rowAt(place);
    const cells = cellsOfRow(row);
    Object.assign(node, {className: `row ${row.kind}`, title: cells.map(([, text]) => text).join("  ")});
    node.setAttribute("aria-posinset", place + 1);
    if (row.frame === undefined) delete node.dataset.frame;
    else node.dataset.frame = row.frame;
    cells.forEach(([kind, text], at) => {
        const cell = node.children[at] ?? node.appendChild(made("span", " "));
        if (cell.className !== kind) cell.className = kind;
        if (cell.firstChild.data !== String(text)) cell.firstChild.data = text;
    });
    while (node.children.length > cells.length) node.lastChild.remove();
    return node;
}

// ---- What is in view -----------------------------------------------------------------------------------------------------------------

// The rows in the page by their place in the list, and the marked ones.
const shownRows = new Map();
const markedRows = {selected: undefined, found: undefined};

// How far the list is scrolled. The list itself says it too, but then the browser lays out the whole page.
let scrolled = 0;

// Shows other rows, none of which is there yet, in the nodes that are there.
function refill(first, last) {
    const nodes = Array.from(listRows.children);
    shownRows.clear();
    nodes.forEach((node, at) => {
        if (first + at < last) shownRows.set(first + at, fillRow(node, first + at));
        else node.remove();
    });
}

// Puts the rows that are in view into the page. Those that are there already stay as they are.
function drawList() {
    const top = scrolled * scrollScale();
    const first = Math.max(0, Math.floor(top / ROW_HEIGHT) - 5);
    const last = Math.min(ROW_COUNT, first + Math.ceil(sizes.list / ROW_HEIGHT) + 10);
    if (Array.from(shownRows.keys()).every((place) => place < first || place >= last)) refill(first, last);
    for (const [place, node] of shownRows) {
        if (place >= first && place < last) continue;
        node.remove();
        shownRows.delete(place);
    }
    let following = null;
    for (let place = last - 1; place >= first; place--) {
        if (!shownRows.has(place)) shownRows.set(place, listRows.insertBefore(fillRow(emptyRow(), place), following));
        following = shownRows.get(place);
    }
    listRows.style.paddingTop = `${scrolled - (top - first * ROW_HEIGHT)}px`;
    markRows();
}

// Marks the current line, and the row that was found.
function markRows() {
    const [selected, found] = [shownRows.get(rowOf(current)), shownRows.get(foundRow)];
    if (markedRows.selected) Object.assign(markedRows.selected, {id: "", ariaSelected: "false"});
    if (selected) Object.assign(selected, {id: "current-row", ariaSelected: "true"});
    markedRows.found?.classList.remove("found");
    found?.classList.add("found");
    Object.assign(markedRows, {selected, found});
}

// Brings a row into view, in the middle if it is out of view.
function showInList(place) {
    const top = place * ROW_HEIGHT;
    const seen = scrolled * scrollScale();
    const isInView = top >= seen + ROW_HEIGHT && top + 2 * ROW_HEIGHT <= seen + sizes.list;
    if (!isInView) {
        list.scrollTop = (top - sizes.list / 2) / scrollScale();
        scrolled = list.scrollTop;
    }
    drawList();
}

list.onscroll = () => {
    scrolled = list.scrollTop;
    drawList();
};
list.onclick = (event) => {
    const row = event.target.closest("[data-frame]");
    if (row) show(Number(row.dataset.frame));
};
