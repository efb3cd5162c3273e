// The chart of numbers over the run, or over a part of it. It scales to what is shown.

const CHART = {height: 110, left: 44, right: 12, top: 10, bottom: 30};
// The kinds of lines, in the order in which they are used.
const STYLES = ["free", "queued", "held", "fourth", "fifth", "sixth", "seventh", "eighth"];

// ---- What is shown ---------------------------------------------------------------------------------------------------------------

function freeSteps() {
    const [queued, held] = ["queued", "held"].map(stepsOf);
    const frames = [...new Set([...queued.frames, ...held.frames])].sort((one, other) => one - other);
    return {frames, values: frames.map((frame) => run.mblks - valueAt(queued, frame) - valueAt(held, frame))};
}

const freeOnce = remembered(1, freeSteps);

// What can be shown: a name, and its lines, each with a name, a style and steps.
function choices() {
    const blocks = {name: "message blocks queued and held", lines: () => [["queued", "queued", stepsOf("queued")], ["held", "held", stepsOf("held")]]};
    const free = {name: "message blocks, with free ones", lines: () => [["free", "free", freeOnce()], ...blocks.lines()]};
    const data = {name: "free data blocks of each class", lines: () => run.classes.map(([size], place) => [`${size} bytes`, STYLES[place], stepsOf(`data ${place}`)])};
    const bands = run.bands.flatMap((own, queue) => own.map((band) => ({
        name: `bytes of ${labelOf(queue)}, band ${band}`,
        lines: () => [["bytes", "queued", stepsOf(`bytes ${queue} ${band}`)], ["high mark", "held", stepsOf(`high ${queue} ${band}`)], ["low mark", "free", stepsOf(`low ${queue} ${band}`)]],
    })));
    return [blocks, free, data, ...bands];
}

const CHOICES = choices();
const shownLines = () => CHOICES[Number(byId("series").value)].lines();

// The first and the last frame that are shown.
function rangeOf(frame) {
    const most = Number(byId("range").value);
    if (most === 0 || most >= LAST) return [0, LAST];
    const first = Math.max(0, Math.min(LAST - most, frame - Math.floor(most / 2)));
    return [first, first + most];
}

// ---- Drawing ---------------------------------------------------------------------------------------------------------------------

// Where frames and values are, for a range and a greatest value.
function scaleOf([first, last], most, width) {
    const {height, left, right, top, bottom} = CHART;
    const across = width - left - right;
    return {
        x: (frame) => left + ((frame - first) / Math.max(1, last - first)) * across,
        y: (value) => height - bottom - (value / Math.max(1, most)) * (height - top - bottom),
        frame: (x) => Math.round(first + ((x - left) / across) * (last - first)),
    };
}

// The steps in a range, with the value at its beginning in front.
function stepsIn({frames, values}, [first, last]) {
    const begin = placeOf(frames, first);
    const end = placeOf(frames, last);
    return {frames: [first, ...frames.slice(begin + 1, end + 1)], values: [values[begin], ...values.slice(begin + 1, end + 1)]};
}

// A line of steps. For each point across, it goes to the least and the greatest value there.
function curve({frames, values}, last, at) {
    let path = `M${at.x(frames[0]).toFixed(1)} ${at.y(values[0]).toFixed(1)}`;
    for (let begin = 1; begin < frames.length; ) {
        const x = Math.round(at.x(frames[begin]));
        let [end, low, high] = [begin, values[begin], values[begin]];
        for (; end < frames.length && Math.round(at.x(frames[end])) === x; end++) {
            low = Math.min(low, values[end]);
            high = Math.max(high, values[end]);
        }
        const stops = end - begin > 1 ? [low, high, values[end - 1]] : [values[begin]];
        path += `H${at.x(frames[begin]).toFixed(1)}${stops.map((value) => `V${at.y(value).toFixed(1)}`).join("")}`;
        begin = end;
    }
    return `${path}H${at.x(last).toFixed(1)}`;
}

// Ticks at frames of a range, one for each point across.
function ticks(frames, [first, last], at, y, sign, kind) {
    const shown = frames.slice(placeOf(frames, first - 1) + 1, placeOf(frames, last) + 1);
    const points = [...new Set(shown.map((frame) => Math.round(at.x(frame))))];
    return points.map((x) => element("text", {class: kind, x, y, "text-anchor": "middle"}, sign));
}

function level(value, at, range) {
    const [x1, x2] = range.map(at.x);
    return [
        element("line", {class: "axis", x1, x2, y1: at.y(value), y2: at.y(value)}),
        element("text", {class: "faint", x: x1 - 6, y: at.y(value) + 4, "text-anchor": "end"}, value),
    ];
}

// What was drawn last, so that moving within a range moves only the cursor.
const drawnChart = {key: "", at: undefined};

function drawChart(frame) {
    const chart = byId("chart");
    const width = sizes.chart;
    const range = rangeOf(frame);
    const key = [width, byId("series").value, ...range].join(" ");
    if (drawnChart.key !== key) {
        const lines = shownLines().map(([name, style, steps]) => [name, style, stepsIn(steps, range)]);
        const most = Math.max(1, ...lines.map(([, , {values}]) => values.reduce((high, value) => Math.max(high, value), 0)));
        const at = scaleOf(range, most, width);
        Object.assign(drawnChart, {key, at});
        showChart(chart, lines, range, most, at);
    }
    for (const end of ["x1", "x2"]) byId("cursor").setAttribute(end, drawnChart.at.x(frame));
    showLegend(frame);
}

function showChart(chart, lines, range, most, at) {
    const {height, bottom} = CHART;
    chart.setAttribute("height", height);
    const drawn = [
        ...level(0, at, range),
        ...level(most, at, range),
        element("text", {class: "faint", x: at.x(range[0]), y: height - 2}, `frame ${range[0]}`),
        element("text", {class: "faint", x: at.x(range[1]), y: height - 2, "text-anchor": "end"}, range[1]),
        ...lines.map(([, style, steps]) => element("path", {class: `series ${style}`, d: curve(steps, range[1], at)})),
        ...ticks(framesOf("refused"), range, at, height - bottom + 13, "✗", "refusal"),
        element("line", {id: "cursor", y1: at.y(most) - 6, y2: at.y(0) + 6}),
    ];
    chart.replaceChildren(...drawn.map(nodeOf));
}

// The name, the style and the value of each line at a frame.
function showLegend(frame) {
    byId("legend").replaceChildren(...shownLines().map(([name, style, steps]) => {
        const item = made("li", "");
        item.append(made("span", "", {className: `sample ${style}`}), `${name} `, made("output", valueAt(steps, frame)));
        return item;
    }));
}

byId("series").replaceChildren(...CHOICES.map(({name}, value) => made("option", name, {value})));
for (const name of ["series", "range"]) byId(name).onchange = () => drawChart(current);
byId("chart").onclick = (event) => show(drawnChart.at.frame(event.clientX - byId("chart").getBoundingClientRect().left));
