// The panels of the picture: what they show, and how much room they keep, so that they stay where they are from frame to frame. A panel is
// as high as what it shows, in a dotted frame of its room.

// If a run has many blocks in use, all its frames draw them narrow.
const SMALL = run.most.inUse > 40;
const CELL = {width: SMALL ? 88 : 140, height: 3 * ROW + 21};
const BETWEEN = 6;
const LABEL = 18;
// How many rows of blocks a panel shows, unless all are asked for.
const ROWS_OF_BLOCKS = 3;
// How many wishes are shown.
const MOST_ITEMS = 16;
const PAD = 8;
// The signs of data blocks with several references.
const SIGNS = "◆●■▼★✚";
const signOf = (data) => SIGNS[data % SIGNS.length];

// ---- Blocks ------------------------------------------------------------------------------------------------------------------------

// The fields of a block, in three lines of one text, which a browser lays out faster than many. Marked ones are framed.
function blockText(fields, {marks}, sign) {
    const [type, length, room, data, references] = fields.map(({value}) => value);
    const lines = SMALL ? [[type], [length, `+${room}`]] : [[type], [`len ${length}`, `room ${room}`]];
    const texts = [...lines, [`d${data}`, `×${references}${sign}`]];
    const frames = [];
    let place = 0;
    const shown = texts.flatMap((line, row) => {
        let x = 4;
        return line.map((text) => {
            const {key} = fields[place++];
            const [isMarked, left] = [marks.has(key), x];
            const width = String(text).length * LETTER;
            if (isMarked) frames.push(moved({drawn: markFrame(width + 2, ROW - 2)}, left - 1, row * ROW + 4));
            x += width + 2 * BESIDE;
            return element("tspan", {class: isMarked ? "field marked" : "field", "data-key": key, x: left, y: row * ROW + 15}, text);
        });
    });
    return element("g", {}, ...frames, element("text", {}, ...shown));
}

function sayBlock({kind, length, capacity, room, band, data}, count) {
    const references = count > 1 ? `${count} references` : "one reference";
    return `${kind}, ${length} of ${capacity} bytes, room ${room}, band ${band}, data block ${data} with ${references}`;
}

// A block. The chosen one, and those that share its data block, are marked.
function blockPiece(message, block, drawing) {
    const {marks, references, chosen} = drawing;
    const key = keyOf(message, block);
    const count = references.get(block.data);
    const sign = count > 1 ? signOf(block.data) : "";
    const kinds = ["block", count > 1 && "shared", chosen?.number === block.number && "chosen", chosen && chosen.number !== block.number && chosen.data === block.data && "same"];
    const drawn = element("g", {class: kinds.filter(Boolean).join(" "), "data-key": key, "data-block": block.number, role: "button", tabindex: 0, "aria-label": sayBlock(block, count)});
    const bytes = bar(CELL.width - 8, {most: block.capacity, shares: [[block.read, "gone"], [block.length, "used"]]});
    drawn.append(element("rect", {...CELL, rx: 4}), blockText(blockFields(key, block, references), drawing, sign), moved(bytes, 4, 3 * ROW + 7));
    if (marks.has(key)) drawn.append(signPiece("+", CELL.width - 12, 3));
    drawn.append(element("title", {}, sayBlock(block, count)));
    return drawn;
}

// A sign at a corner: + for what came, ≠ for what changed.
const signPiece = (sign, x, y) => element("g", {class: "sign", transform: `translate(${x} ${y})`}, textAt(sign, 0));

// ---- Messages ----------------------------------------------------------------------------------------------------------------------

// Cells of a grid: a block of a message in each, as many as there is room for. If there are more, the last one says how many.
function cellsOf(messages, most) {
    const total = sum(messages.map(({blocks}) => blocks.length));
    const cells = [];
    for (const message of messages) {
        for (const block of message.blocks) {
            if (total > most && cells.length === most - 1) return [...cells, {more: total - cells.length}];
            cells.push({message, block});
        }
    }
    return cells;
}

// Cells of one row that are of the same message, one after another.
function runsOf(cells, columns) {
    const runs = [];
    cells.forEach((cell, place) => {
        const last = runs.at(-1);
        if (place % columns > 0 && last?.cells[0].message === cell.message && cell.message) last.cells.push(cell);
        else runs.push({row: Math.floor(place / columns), column: place % columns, cells: [cell], isFirst: cell.block === cell.message?.blocks[0]});
    });
    return runs;
}

function runPiece({cells, isFirst}, drawing) {
    const [{message, more}] = cells;
    if (more) return element("g", {"data-more": more}, element("text", {x: 4, y: LABEL + 16}, `and ${more} more`));
    const mark = isFirst ? drawing.marks.get(message.key) : undefined;
    const kinds = ["message", message.isHigh && "high", mark && "marked"];
    const drawn = element("g", {class: kinds.filter(Boolean).join(" "), ...(isFirst ? {"data-key": message.key} : {})});
    const width = cells.length * CELL.width + (cells.length - 1) * BETWEEN;
    drawn.append(element("rect", {x: -2, y: 0, width: width + 4, height: CELL.height + LABEL + 2, rx: 4}));
    if (message.isHigh) drawn.append(element("rect", {x: -4, y: -2, width: width + 8, height: CELL.height + LABEL + 6, rx: 6}));
    const rank = message.isHigh ? "▲ high" : message.rank;
    drawn.append(element("text", {x: 2, y: 13}, element("tspan", {class: "faint"}, isFirst ? `${message.label} ` : "… "), element("tspan", {class: "rank"}, rank)));
    if (mark) drawn.append(signPiece(mark === "came" ? "+" : "≠", CELL.width - 10, 1));
    cells.forEach(({block}, place) => {
        drawn.append(moved({drawn: blockPiece(message, block, drawing)}, place * (CELL.width + BETWEEN), LABEL));
    });
    return drawn;
}

const columnsIn = (width) => Math.max(1, Math.floor((width + BETWEEN) / (CELL.width + BETWEEN)));
const heightOfRows = (rows) => (rows > 0 ? rows * (CELL.height + LABEL + 10) - 4 : 0);

// The cells of a panel in a grid. It keeps as much room as the run ever needs for it, up to a few rows.
function gridOf({messages}, most, {showsAll}, width) {
    const columns = columnsIn(width);
    const used = Math.ceil(sum(messages.map(({blocks}) => blocks.length)) / columns);
    const rows = showsAll ? used : Math.min(ROWS_OF_BLOCKS, Math.ceil(most / columns));
    return {width, columns, rows, spare: heightOfRows(rows) - heightOfRows(Math.min(rows, used)), cells: cellsOf(messages, rows * columns)};
}

function gridPiece({width, columns, rows, cells}, drawing) {
    const drawn = element("g", {});
    for (const one of runsOf(cells, columns)) {
        drawn.append(moved({drawn: runPiece(one, drawing)}, one.column * (CELL.width + BETWEEN), one.row * (CELL.height + LABEL + 10)));
    }
    return {width, height: heightOfRows(rows), drawn};
}

// ---- Panels ------------------------------------------------------------------------------------------------------------------------

function rowPiece({label, fields, bar: shares}, {marks}, width) {
    const pieces = [...(label ? [words(label)] : []), ...fields.map((one) => fieldPiece(one, marks))];
    return stack([flow(pieces, width, 4), ...(shares ? [bar(width, shares)] : [])], 4);
}

const BAND_HEIGHT = 2 * ROW + 2;

// A band: its bytes and flags, and below them its bar with the water marks behind.
function bandPiece({label, fields, bar: shares}, {marks}, width) {
    const [bytes, low, high, ...flags] = fields.map((one) => fieldPiece(one, marks));
    const numbers = flow([low, high], Infinity, 4);
    const wide = width - numbers.width - 8;
    const below = element("g", {}, moved(bar(wide, shares), 0, 4), moved(numbers, wide + 8, 0));
    return stack([flow([words(label), bytes, ...flags], width, 4), {width, height: ROW, drawn: below}], 2);
}

function panelPiece(panel, pieces, drawing, width, spare = 0) {
    const kinds = ["panel", drawing.marks.has(panel.key) && "changed", panel.key === `queue ${drawing.asked?.queue}` && "found"];
    const note = panel.title === panel.key ? [] : [words(panel.key, "faint")];
    const inner = stack([flow([words(panel.title, "title"), ...note], width - 2 * PAD), ...pieces], 5);
    const size = {width, height: inner.height + 2 * PAD};
    const drawn = element("g", {class: kinds.filter(Boolean).join(" "), "data-panel": panel.key, role: "group", "aria-label": panel.note ?? panel.title});
    drawn.append(element("rect", {class: "room", ...size, rx: 4}), element("rect", {width, height: size.height - spare, rx: 4}), moved(inner, PAD, PAD));
    return {...size, drawn};
}

// The height of a list of so many of some items.
const heightOfList = (name, items, most, width) => listPiece({key: "", name, items: items.slice(0, most)}, width, false, MOST_ITEMS).height;

// Pieces of panels that were drawn, each with what it was drawn from.
const drawnPanels = new Map();

// The piece of a panel, which is made again only if what it shows differs.
function keptPanel(panel, grid, drawing, width, make) {
    const {marks, references, chosen, asked} = drawing;
    const own = Array.from(marks.keys()).filter((key) => key.startsWith(panel.key));
    if (asked && panel.key === `queue ${asked.queue}`) own.push(`asked ${asked.band}`);
    const cells = grid.cells.map(({message, block, more}) => (more ? more : [message.key, message.label, message.rank, block, references.get(block.data)]));
    const from = JSON.stringify([width, grid.rows, panel.title, panel.rows, panel.bands, panel.lists, cells, own, chosen?.number, chosen?.data]);
    if (drawnPanels.get(panel.key)?.from !== from) drawnPanels.set(panel.key, {from, piece: make()});
    return drawnPanels.get(panel.key).piece;
}

function poolPanel(panel, drawing, width) {
    const inner = width - 2 * PAD;
    const longest = run.queues.map((_, queue) => labelOf(queue)).sort((one, other) => other.length - one.length);
    const room = {
        "pool run": heightOfList("run list", longest, run.most.run, inner),
        "pool wishes": heightOfList("wishes", new Array(MOST_ITEMS + 1).fill("id 10 size 1000"), run.most.wishes, inner),
    };
    const lists = panel.lists.map((list) => atLeast(listPiece(list, inner, drawing.marks.has(list.key), MOST_ITEMS), room[list.key]));
    return panelPiece(panel, [...panel.rows.map((row) => rowPiece(row, drawing, inner)), ...lists], drawing, width);
}

function queuePanel(panel, number, grid, drawing, width) {
    const inner = width - 2 * PAD;
    const [high, low, service] = run.queues[number];
    const bands = stack(panel.bands.map((band) => bandPiece(band, drawing, inner)), 5);
    const rows = panel.rows.map((row) => rowPiece(row, drawing, inner));
    // Flags leave room at the right.
    if (drawing.asked?.queue === Number(number)) rows[0].drawn.append(element("text", {class: "asked", x: inner, y: 12, "text-anchor": "end"}, `band ${drawing.asked.band}: no`));
    return panelPiece(panel, [
        ...rows,
        words(`high ${high}  low ${low}  ${service === "s" ? "service" : "no service"}`, "faint"),
        atLeast(bands, run.most.bands[number] * (BAND_HEIGHT + 5) - 5),
        gridPiece(grid, drawing),
    ], drawing, width, grid.spare);
}

function workerPanel(panel, worker, grid, drawing, width) {
    const rows = panel.rows.map((row) => rowPiece(row, drawing, width - 2 * PAD));
    const nothing = run.registers[worker] === "" ? [words("never holds a message", "faint")] : [];
    return panelPiece(panel, [...rows, ...nothing, gridPiece(grid, drawing)], drawing, width, grid.spare);
}

// The piece of any panel, by its key.
function pieceOf(panel, drawing, width) {
    const [kind, number] = panel.key.split(" ");
    const most = {queue: run.most.queues, worker: run.most.workers}[kind]?.[number] ?? 0;
    const grid = gridOf(panel, most, drawing, width - 2 * PAD);
    return keptPanel(panel, grid, drawing, width, () => {
        if (kind === "pool") return poolPanel(panel, drawing, width);
        return (kind === "queue" ? queuePanel : workerPanel)(panel, number, grid, drawing, width);
    });
}
