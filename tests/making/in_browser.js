// The programs that tests/view_in_browser adds to pages, each after the line that names it. Most are bodies of functions, whose result it reads.

// ---- walk: Goes through all frames. A key has its text and, if it is marked, a sign.
if (NARROW) document.body.style.width = "400px";
measure();
const all = byId("all");
const own = (node, kind) => [...node.children].find((child) => child.classList.contains(kind) || child.tagName === kind);
const signOf = (node) => own(node, "sign")?.textContent ?? (node.classList.contains("field") || node.classList.contains("flag") ? "" : "!");
const isMarked = (node) => node.classList.contains("marked") || (node.classList.contains("block") && own(node, "sign"));
const textOf = (node) => node.classList.contains("block") ? "" : node.classList.contains("message") ? own(node, "text").textContent : node.textContent;
const items = () => [...document.querySelectorAll("#picture [data-key]")];
const panels = () => [...document.querySelectorAll("#picture .panel")];
const places = () => panels().map((panel) => {
    const {x, y, width, height} = panel.firstChild.getBoundingClientRect();
    const {left, top} = byId("picture").getBoundingClientRect();
    return [panel.dataset.panel, x - left, y - top, width, height].map((value) => value.toFixed?.(1) ?? value).join(" ");
}).join("; ");
const spilt = () => {
    const most = byId("picture").getBoundingClientRect().right + 1;
    const wide = panels().filter((panel) => panel.getBBox().width > Number(panel.firstChild.getAttribute("width")) + 12 || panel.getBoundingClientRect().right > most);
    const page = document.documentElement.scrollWidth > innerWidth || document.body.scrollWidth > document.body.clientWidth;
    const {x, width} = byId("picture").getBBox();
    const picture = x < -10 || x + width > byId("picture").getBoundingClientRect().width + 2;
    return [...wide.map((panel) => panel.dataset.panel), ...(page ? ["page"] : []), ...(picture ? ["picture"] : [])];
};
const inList = () => {
    const row = list.querySelector('[aria-selected="true"]');
    const [inside, outside] = [row, list].map((node) => node?.getBoundingClientRect());
    return row !== null && inside.top >= outside.top - 1 && inside.bottom <= outside.bottom + 1 ? row.textContent : "not in view";
};
const isInPool = (node) => {
    const [inside, outside] = [node, byId("pool")].map((one) => one.getBoundingClientRect());
    const {top, bottom} = seenPart();
    return inside.top >= top && inside.bottom <= bottom && inside.left >= outside.left && inside.right <= outside.right;
};
// The changed panels whose heads are out of view, and are not named as such.
const unnamed = () => {
    const {top, bottom} = seenPart();
    const heads = [...document.querySelectorAll("#picture .panel.changed:not([data-panel=pool]) .title")].slice(0, MOST_ITEMS);
    const out = heads.filter((head) => head.getBoundingClientRect().top < top || head.getBoundingClientRect().bottom > bottom);
    const named = Array.from(byId("beyond").children, (button) => button.textContent.slice(2));
    return out.map((head) => head.textContent).filter((head) => !named.includes(head));
};
// Of what a line did to a band, and of the label of its arrow, what is out of view.
const outOfView = (frame) => {
    const about = bandIn(lineAt(frame));
    const band = about ? document.querySelectorAll(`#picture [data-key^="queue ${about.queue} band ${about.band} "], #picture .asked`) : [];
    return Array.from(band).filter((node) => !isInPool(node)).map((node) => node.textContent);
};
const frames = [];
for (const frame of FRAMES) {
    all.checked = false;
    show(frame);
    const bars = byId("pool").scrollWidth > byId("pool").clientWidth ? ["a bar below the pool"] : [];
    const steady = {places: places(), wide: [...spilt(), ...bars], row: inList(), hidden: [...outOfView(frame), ...unnamed()]};
    all.checked = true;
    show(frame);
    const shown = items();
    frames.push({
        frame, ...steady, wideAll: spilt(), where: byId("where").textContent, command: byId("command").textContent, reply: byId("reply").textContent,
        report: byId("report").textContent, changes: byId("changes").textContent,
        links: [...byId("changes").querySelectorAll("a")].map((link) => [link.textContent, link.getAttribute("href")]),
        asked: [...document.querySelectorAll("#picture .asked")].map((node) => [node.closest(".panel.found")?.dataset.panel, node.textContent]),
        lit: [...document.querySelectorAll("#picture .arrow.lit")].map((node) => node.dataset.arrow),
        items: NARROW ? {} : Object.fromEntries(shown.map((node) => [node.dataset.key, textOf(node)])),
        marks: NARROW ? {} : Object.fromEntries(shown.filter(isMarked).map((node) => [node.dataset.key, signOf(node)])),
        panels: panels().filter((panel) => panel.classList.contains("changed")).map((panel) => panel.dataset.panel),
        set: shown.filter((node) => node.classList.contains("set")).map((node) => node.dataset.key),
    });
}
return frames;

// ---- moves: Moves by keys, buttons and fields, and returns the frames.
const moves = [];
const press = (key, more = {}, target = document) => { target.dispatchEvent(new KeyboardEvent("keydown", {key, bubbles: true, ...more})); moves.push(current); };
show(5);
for (const key of ["Home", "ArrowLeft", "ArrowRight", "End", "ArrowRight", "ArrowLeft", "Home"]) press(key);
press("ArrowRight", {shiftKey: true});
press("ArrowLeft", {shiftKey: true});
press("ArrowDown", {}, list);
press("PageDown", {}, list);
press("PageUp", {}, list);
press("ArrowUp", {}, list);
press("ArrowLeft", {ctrlKey: true});
press("End", {}, byId("text"));
for (const key of ["Home", "ArrowRight", "End", "ArrowLeft"]) { document.querySelector(`#moving [data-key="${key}"]`).click(); moves.push(current); }
byId("slider").value = 2;
byId("slider").dispatchEvent(new Event("input"));
moves.push(current);
byId("frame").value = 3;
byId("frame").dispatchEvent(new Event("change"));
moves.push(current);
show(0);
[...list.querySelectorAll("[data-frame]")].find((row) => row.dataset.frame === "4").firstChild.click();
moves.push(current);
const goTo = (place) => { byId("place").value = place; byId("place").dispatchEvent(new Event("change")); moves.push(current); };
const {worker, number} = lineAt(3);
goTo(`${worker}:${number}`);
goTo(` ${lineAt(2).number} `);
goTo("1");
const refused = byId("where").textContent;
goTo("");
press("l");
const focus = document.activeElement.id;
show(4);
press(" ");
const isPlaying = byId("play").textContent;
press(" ");
return {moves, refused, focus, played: [isPlaying, byId("play").textContent], page: Math.floor(list.clientHeight / ROW_HEIGHT)};

// ---- jumps: Looks for each thing that can be looked for, on from the first frame and back from the last one.
const found = {};
const walk = (step) => {
    const frames = [];
    for (let before = -1; before !== current; ) { before = current; press(step); if (current !== before) frames.push(current); }
    return frames;
};
const press = (key) => document.dispatchEvent(new KeyboardEvent("keydown", {key}));
for (const kind of Object.keys(KINDS)) {
    byId("kind").value = kind;
    byId("kind").dispatchEvent(new Event("change"));
    const options = [...byId("which").options].map((option) => option.value);
    for (const which of options.length > 0 ? options : [""]) {
        byId("which").value = which;
        byId("which").dispatchEvent(new Event("change"));
        show(0);
        const on = walk("n");
        show(LAST);
        const isLast = lineAt(LAST) && matches(lookedFor()).includes(LAST);
        found[`${kind} ${which}`.trim()] = {on, back: [...(isLast ? [LAST] : []), ...walk("N")].reverse()};
    }
}
const keys = {};
for (const [on, back] of ["rR", "bB", "cC"]) { show(0); keys[on] = walk(on); show(LAST); keys[back] = walk(back).reverse(); }
const texts = {};
for (const text of TEXTS) {
    byId("text").value = text;
    byId("text").dispatchEvent(new Event("input"));
    const enter = (shiftKey) => {
        byId("text").dispatchEvent(new KeyboardEvent("keydown", {key: "Enter", shiftKey, bubbles: true}));
        while (hits.chunk < ROWS.length) countOn();
    };
    const rows = (shiftKey) => {
        const all = [];
        for (let before = -1; before !== foundRow; ) { before = foundRow; enter(shiftKey); if (foundRow !== before) all.push([foundRow, current, byId("hit").textContent]); }
        return all;
    };
    show(0);
    foundRow = undefined;
    const begin = rowOf(0);
    const on = rows(false);
    show(LAST);
    texts[text] = {begin, on, back: rows(true).reverse()};
}
return {found, keys, texts};

// ---- names: What has no name for somebody who does not see the page, and what the picture is described by.
const nameOf = (node) => node.getAttribute("aria-label") || node.textContent.trim() || (node.labels?.length && node.labels[0].textContent.trim()) || document.getElementById(node.getAttribute("aria-labelledby"))?.textContent;
show(LAST);
const all = [...document.querySelectorAll("button, input, select, section, svg, [role=listbox], [role=button], [role=group], [role=toolbar]")];
const described = byId("picture").getAttribute("aria-describedby");
return {
    nameless: all.filter((node) => !nameOf(node)).map((node) => node.outerHTML.slice(0, 100)), count: all.length,
    headings: [...document.querySelectorAll("h1, h2")].map((node) => node.tagName + " " + node.textContent),
    described: byId(described).textContent, selected: list.querySelector("#" + list.getAttribute("aria-activedescendant")).textContent,
    block: document.querySelector("#picture .block").getAttribute("aria-label"),
};

// ---- links: Follows the links from one frame, and back, and opens the explanation.
const follow = () => { byId("changes").querySelector("a").click(); return [current, document.activeElement.id]; };
show(FRAME);
const followed = [follow(), follow()];
document.dispatchEvent(new KeyboardEvent("keydown", {key: "?"}));
return {followed, helped: [byId("help").open, document.activeElement.textContent]};

// ---- views: What of the marks and callers in the list is cut at some frames, what of the changed band and of the labels of lit arrows is out of view,
// and whether a frame whose changes are in view leaves the pool where it is.
measure();
const box = (node) => node.getBoundingClientRect();
const isWithin = (inside, outside) => inside.left >= outside.left && inside.right <= outside.right && inside.top >= outside.top && inside.bottom <= outside.bottom;
const textsOf = (nodes) => nodes.map((node) => node.textContent);
return FRAMES.map((frame) => {
    byId("pool").scrollTop = 0;
    show(frame);
    const {queue, band} = bandIn(lineAt(frame));
    const changed = [...document.querySelectorAll(`#picture [data-key^="queue ${queue} band ${band} "], #picture .lit text, #picture .asked`)];
    const hidden = textsOf(changed.filter((node) => node.getClientRects().length > 0 && !isWithin(box(node), box(byId("pool")))));
    const shown = [...list.querySelectorAll(".tag, .caller, .comment")].filter((node) => box(node).bottom > box(list).top && box(node).top < box(list).bottom);
    const isCut = (node) => node.scrollWidth > node.clientWidth && node.className !== "comment";
    const cut = textsOf(shown.filter((node) => isCut(node) || box(node).right > box(list).right));
    const before = byId("pool").scrollTop;
    byId("pool").scrollTop += 3;
    const there = byId("pool").scrollTop;
    show(frame);
    const jumps = byId("pool").scrollTop - there;
    byId("pool").scrollTop = 0;
    showBeyond();
    const label = box(byId("showing"));
    const named = [...byId("beyond").children].map(box);
    const covers = named.filter((one) => one.left < label.right && one.right > label.left && one.top < label.bottom && one.bottom > label.top).length;
    return {hidden, cut, count: [changed.length, shown.length], jumps, scrolled: before, covers, named: named.length};
});

// ---- fresh: At which frames the picture or the list, as it became by changes from other frames, is not what is drawn from scratch.
const rowShown = (node) => [node.className, node.title, node.dataset.frame, node.ariaSelected, node.getAttribute("aria-posinset"), ...Array.from(node.children, (cell) => [cell.className, cell.textContent])];
const shown = () => JSON.stringify([byId("picture").innerHTML, Array.from(listRows.children, rowShown)]);
const differ = [];
const counts = {changed: 0, frames: 0};
for (const all of [false, true]) {
    byId("all").checked = all;
    for (const frame of FRAMES) {
        const node = document.querySelector("#picture .panel");
        show(frame);
        if (document.querySelector("#picture .panel") === node) counts.changed++;
        counts.frames++;
        const changed = shown();
        drawnPicture.sizes = "";
        drawnPanels.clear();
        listRows.replaceChildren();
        shownRows.clear();
        show(frame);
        if (shown() !== changed) differ.push([all, frame]);
    }
}
return {differ, counts};

// ---- plays: Plays for two seconds, and then to the end.
const playFrom = (frame) => { show(frame); byId("speed").value = "20"; byId("play").click(); };
const seen = [];
playFrom(0);
setTimeout(() => { byId("play").click(); seen.push(current); playFrom(LAST - 5); }, 2000);
setTimeout(() => { seen.push(current === LAST, byId("play").textContent); document.title = JSON.stringify(seen); }, 3500);

// ---- tries: Goes through each script of docs/play.html, line by line, and then changes some: what is wrong, undo, keys, the focus and a link.
(async () => {
    const faults = [];
    const undoable = [byId("undo").ariaDisabled];
    onerror = (why) => faults.push(why);
    const press = (key) => document.dispatchEvent(new KeyboardEvent("keydown", {key, altKey: true}));
    const script = byId("script");
    const runs = [...byId("example").options].map(({value}) => {
        byId("example").value = value;
        byId("example").onchange();
        const marked = [...byId("replies").querySelectorAll("[data-frame]")].map((button) => {
            button.click();
            return byId("picture").childElementCount > 0 && button.ariaCurrent === "step";
        });
        return {script: script.value, text: byId("report").textContent, isMarked: marked.every(Boolean)};
    });
    const own = script.value;
    script.value = own.replace("\nworker", "\nwurker");
    script.oninput();
    const fault = byId("fault").textContent;
    undoable.push(byId("undo").ariaDisabled);
    byId("undo").click();
    const isUndone = script.value === own && byId("fault").textContent === "";
    const keys = ["Home", "ArrowDown", "ArrowDown", "ArrowUp"].map((key) => { press(key); return current; });
    const choose = (name) => { byId("example").value = FACTS.examples.findIndex((one) => one[0].startsWith(name)); byId("example").onchange(); };
    const seen = () => [script.value, byId("example").selectedOptions[0].text, byId("task").textContent];
    const type = (text) => { script.value = text; script.selectionEnd = text.length; script.oninput(); };
    byId("example").dispatchEvent(new Event("blur"));
    choose("exercise 1");
    scrollTo(0, 0);
    script.focus({preventScroll: true});
    for (const line of ["service", "getq 0 c", "allocb d 1", "putq 0 d", "service"]) type(`${script.value}${line}\n`);
    const typed = {scrolled: scrollY, line: byId("command").textContent};
    const edited = seen();
    byId("example").dispatchEvent(new Event("blur"));
    for (const name of ["exercise 2", "exercise 3", "exercise 4"]) choose(name);
    byId("undo").click();
    const passed = [edited, seen()];
    while (byId("undo").ariaDisabled === "false" && passed.length < 99) { byId("undo").click(); passed.push(seen()); }
    undoable.push(byId("undo").ariaDisabled);
    choose("exercise 3");
    const replies = () => [...byId("replies").children].map((node) => node.textContent);
    const at = script.value.split("\n").indexOf("getq 2 e");
    const whole = replies();
    type(script.value.replace("getq 2 e", "getq 2"));
    const kept = {fault: byId("fault").textContent, wanted: `line ${at + 1}: the form is getq Q R`, replies: replies().slice(0, at), whole: whole.slice(0, at), after: replies().slice(at).join("")};
    byId("undo").click();
    byId("next").focus();
    press("End");
    byId("next").click();
    const focused = [document.activeElement.id, byId("next").ariaDisabled];
    const enter = () => {
        const {activeElement} = document;
        activeElement.dispatchEvent(new KeyboardEvent("keydown", {key: "Enter", bubbles: true}));
        focused.push(document.activeElement === activeElement, byId("block").hidden);
    };
    document.querySelector("#picture .block").focus();
    focused.push(Boolean(document.activeElement.ariaLabel?.startsWith("M_DATA")));
    enter();
    enter();
    choose("exercise 7");
    const said = [];
    for (const writeText of [async () => {}, async () => { throw Error(); }]) {
        Object.defineProperty(navigator, "clipboard", {value: {writeText}, configurable: true});
        await byId("link").onclick();
        said.push(byId("link").textContent);
    }
    const nameless = [...document.querySelectorAll("button, input, select, textarea")].filter((node) => !(node.labels?.length || node.ariaLabel || node.textContent.trim() || node.ariaHidden));
    const isWide = document.documentElement.scrollWidth > innerWidth;
    document.title = JSON.stringify({
        faults, runs, fault, isUndone, keys, typed, undoable, passed, kept, focused, said, isWide, help: byId("help").textContent,
        hash: location.hash, task: byId("task").outerHTML, nameless: nameless.map((node) => node.outerHTML),
    });
})();

// ---- blocks: Chooses each block of some frames, by a click and by the keyboard.
byId("all").checked = true;
const press = (key) => document.dispatchEvent(new KeyboardEvent("keydown", {key}));
const seen = () => ({
    number: chosenNumber, title: byId("block-title").textContent, bytes: byId("block-bytes").textContent, facts: byId("block-facts").innerText,
    same: [...document.querySelectorAll("#picture .block.same")].map((node) => Number(node.dataset.block)),
    chosen: [...document.querySelectorAll("#picture .block.chosen")].map((node) => Number(node.dataset.block)),
});
return FRAMES.map((frame) => {
    show(frame);
    press("Escape");
    const hidden = byId("block").hidden;
    const numbers = [...document.querySelectorAll("#picture .block")].map((node) => Number(node.dataset.block));
    const blocks = numbers.slice(-MOST).map((number) => {
        document.querySelector(`#picture [data-block="${number}"] text`).dispatchEvent(new MouseEvent("click", {bubbles: true}));
        return seen();
    });
    press("Escape");
    const byKey = numbers.slice(0, MOST).map(() => { press("."); return chosenNumber; });
    press(",");
    const before = chosenNumber;
    press("Escape");
    const focused = document.querySelector("#picture .block");
    focused?.focus();
    const byEnter = ["Enter", " "].map((key) => { focused?.dispatchEvent(new KeyboardEvent("keydown", {key, bubbles: true})); return chosenNumber ?? null; });
    return {frame, hidden, numbers, blocks, byKey, before, byEnter: focused && [...byEnter, document.activeElement === focused, byId("play").textContent]};
});

// ---- times: How long a page takes to open, and to show frames, one after another and anywhere.
const opened = performance.now();
const timed = (frame) => { const begin = performance.now(); show(frame); document.body.getBoundingClientRect(); byId("picture").getBBox(); return performance.now() - begin; };
const frames = FRAMES;
const times = {opened, far: frames.map(timed), on: [], back: []};
show(frames[0]);
for (let k = 1; k <= 300; k++) times.on.push(timed(frames[0] + k));
for (let k = 299; k >= 0; k--) times.back.push(timed(frames[0] + k));
const begin = performance.now();
byId("text").value = "no such text anywhere";
search(1);
times.search = performance.now() - begin;
times.rows = document.querySelectorAll("#list .row").length;
return times;
