// Moving from frame to frame, by keys, buttons, the slider, the address, and by itself.

let current = 0;
let addressing;
let playing;
// The width of the picture and of the chart, and the height of the list.
const sizes = {};

// A picture has a width in points, since one that is a share of the page is laid out again with every change of the page.
function measure() {
    for (const id of ["picture", "chart"]) {
        sizes[id] = byId(id).parentNode.clientWidth;
        byId(id).setAttribute("width", sizes[id]);
    }
    sizes.list = list.clientHeight;
    scrolled = list.scrollTop;
}

// ---- Showing a frame -----------------------------------------------------------------------------------------------------------------

function tellLine(frame, line) {
    const caller = frame > 0 ? callerOf(line) : "";
    const place = frame > 0 ? `worker ${line.worker}, line ${line.number}${caller && `, ${caller}`}` : "before the first line";
    byId("where").textContent = `Frame ${frame} of ${LAST}: ${place}`;
    byId("command").textContent = line.command;
    byId("reply").textContent = line.reply;
    byId("named").textContent = labelIn(line) && `(${labelIn(line)})`;
    byId("slider").setAttribute("aria-valuetext", byId("where").textContent);
    byId("slider").value = frame;
    byId("frame").value = frame;
    byId("place").value = frame > 0 ? `${line.worker}:${line.number}` : "";
}

// Shows a frame, or the nearest one there is. The page's address follows once nobody moves.
function show(frame, row) {
    current = Math.max(0, Math.min(LAST, Math.trunc(frame) || 0));
    foundRow = row;
    hits.end = "";
    // To scroll the list, the browser lays out what changed before. So this comes first.
    showInList(row ?? rowOf(current));
    const line = lineAt(current);
    const before = poolAt(Math.max(0, current - 1));
    const pool = poolAt(current);
    const bands = bandsShown(pool);
    const [old, panels] = [before, pool].map((one) => panelsOf(one, bands));
    const marks = marksOf(before, pool, old, panels);
    tellLine(current, line);
    byId("changes").replaceChildren(...sentencesOf(current, line, before, pool, marks, old, panels).map(sentenceNode));
    showBlock(pool);
    draw(line, pool, panels, marks, chosenIn(pool));
    drawChart(current);
    tellFound();
    tellHits();
    byId("report").textContent = reportOf(pool).map((told) => `${told}\n`).join("");
    // This asks where things are, so that the browser lays out the page: once, after all changes.
    showChanged(line, marks);
    clearTimeout(addressing);
    addressing = setTimeout(() => history.replaceState(null, "", `#frame=${current}`), 300);
}

function redraw() {
    measure();
    show(current);
}

// The frame that an address in the page names, itself or by a line; without an address the first of the kind that is looked for.
function frameIn(hash) {
    const [, what, value] = /^#(frame|line)=([\d:]+)$/.exec(hash) ?? [];
    if (hash.length < 2) return matches(lookedFor())[0] ?? 0;
    return (what === "line" ? frameOfPlace(value) : Number(value)) || 0;
}

// Goes to the line of the script that the field names, if it was executed.
function goToPlace() {
    const place = byId("place").value.trim();
    const frame = frameOfPlace(place);
    show(frame ?? current);
    if (frame === undefined && place !== "") byId("where").textContent = `No line ${place} was executed`;
}

// ---- Playing -------------------------------------------------------------------------------------------------------------------------

// Shows so many lines a second, and stops at the last one. If the page is slower, it leaves some out.
function play() {
    const began = {time: performance.now(), frame: current === LAST ? 0 : current};
    const speed = Number(byId("speed").value);
    playing = setInterval(() => {
        show(began.frame + Math.max(1, Math.floor(((performance.now() - began.time) / 1000) * speed)));
        if (current === LAST) pause();
    }, Math.max(40, 1000 / speed));
    byId("play").textContent = "Pause";
}

function pause() {
    clearInterval(playing);
    playing = undefined;
    byId("play").textContent = "Play";
}

const togglePlay = () => (playing === undefined ? play() : pause());

// ---- Keys ----------------------------------------------------------------------------------------------------------------------------

// Some browsers only select a text, and leave the focus where it is.
function toField(id) {
    byId(id).focus();
    byId(id).select();
}

const KEYS = {
    ArrowLeft: () => show(current - 1),
    ArrowRight: () => show(current + 1),
    "Shift+ArrowLeft": () => show(current - 10),
    "Shift+ArrowRight": () => show(current + 10),
    Home: () => show(0),
    End: () => show(LAST),
    " ": togglePlay,
    g: () => toField("frame"),
    l: () => toField("place"),
    "/": () => toField("text"),
    s: () => search(1),
    S: () => search(-1),
    n: () => jump(1),
    N: () => jump(-1),
    r: () => jumpTo("refused", 1),
    R: () => jumpTo("refused", -1),
    b: () => jumpTo("back", 1),
    B: () => jumpTo("back", -1),
    c: () => jumpTo("no", 1),
    C: () => jumpTo("no", -1),
    ".": () => chooseNext(1),
    ",": () => chooseNext(-1),
    Escape: () => choose(undefined),
    "?": () => {
        byId("help").open = true;
        byId("help").scrollIntoView();
        byId("help").firstElementChild.focus({preventScroll: true});
    },
};
// In the list, further keys move. A field keeps its own keys, but for Escape.
const KEYS_OF_LIST = {
    ArrowUp: () => show(current - 1),
    ArrowDown: () => show(current + 1),
    PageUp: () => show(current - Math.floor(list.clientHeight / ROW_HEIGHT)),
    PageDown: () => show(current + Math.floor(list.clientHeight / ROW_HEIGHT)),
};

function actionOf(event) {
    const {target} = event;
    if (event.altKey || event.ctrlKey || event.metaKey) return undefined;
    if (target.matches?.("input:not([type=range]):not([type=checkbox]), select")) return event.key === "Escape" ? () => target.blur() : undefined;
    if (event.key === " " && target.matches?.("button, summary, input, [role=button]")) return undefined;
    const key = event.shiftKey && event.key.startsWith("Arrow") ? `Shift+${event.key}` : event.key;
    return (target === list && KEYS_OF_LIST[key]) || KEYS[key];
}

document.addEventListener("keydown", (event) => {
    const action = actionOf(event);
    if (!action) return;
    event.preventDefault();
    action();
});

// ---- Buttons and fields ----------------------------------------------------------------------------------------------------------------

for (const button of document.querySelectorAll("[data-key]")) if (button.tagName === "BUTTON") button.onclick = () => KEYS[button.dataset.key]();
byId("play").onclick = togglePlay;
byId("speed").onchange = () => {
    if (playing === undefined) return;
    pause();
    play();
};
byId("frame").onchange = () => show(Number(byId("frame").value));
byId("place").onchange = goToPlace;
byId("slider").oninput = () => show(Number(byId("slider").value));
byId("kind").replaceChildren(...Object.entries(KINDS).map(([value, {name}]) => made("option", name, {value})));
byId("kind").value = Object.keys(KINDS).find((kind) => [...TRACKS.keys()].some((name) => name.split(" ")[0] === kind)) ?? "refused";
byId("kind").onchange = chooseKind;
byId("which").onchange = tellFound;
byId("text").onkeydown = (event) => {
    if (event.key === "Enter") search(event.shiftKey ? -1 : 1);
};
byId("text").oninput = countHits;
// A link goes to its frame. Then the list has the focus, since the link is gone.
byId("changes").onclick = (event) => {
    const link = event.target.closest("a");
    if (!link) return;
    show(frameIn(link.hash));
    list.focus({preventScroll: true});
};
byId("all").onchange = () => show(current);
for (const name of ["slider", "frame"]) byId(name).max = LAST;
byId("last").textContent = LAST;
window.onhashchange = () => show(frameIn(location.hash));
window.onresize = redraw;
for (const scrolls of [byId("pool"), window]) scrolls.addEventListener("scroll", showBeyond, {passive: true});
chooseKind();
current = frameIn(location.hash);
redraw();
