/*
 * The cells of a trace over time: a lane for each kind, the gap that each had to keep, where a forward cell was due,
 * the rate before each, and a mark at the cell that breaks a rule.
 */

const LANE_HEIGHT = 30, LANES_TOP = 30, RATE_HEIGHT = 110, RATE_SPACE = 34, AXIS_HEIGHT = 28, RIGHT_SPACE = 16;
const LANES = ["forward", "backward", "data", "gap", "due"];
const LANE_LABELS = { gap: "gap", due: "forward due" };
const TIME_UNITS = [[1e9, "s"], [1e6, "ms"], [1e3, "µs"], [1, "ns"]];

/* Where instants and rates stand. */
class TraceScale {
    constructor(cells, width, rateOne) {
        this.left = width < 560 ? 88 : 104;
        this.right = width - RIGHT_SPACE;
        this.origin = cells[0].time;
        this.span = Number(cells[cells.length - 1].time - this.origin);
        this.rateOne = rateOne;
        this.most = Math.max(1, ...cells.map((cell) => Number(cell.rate) / rateOne));
        this.rateTop = LANES_TOP + LANES.length * LANE_HEIGHT + RATE_SPACE;
        this.floor = this.rateTop + RATE_HEIGHT;
    }

    /* One instant alone stands in the middle. */
    x(time) {
        const share = this.span === 0 ? 0.5 : Math.min(1, Number(time - this.origin) / this.span);
        return this.left + (this.right - this.left) * share;
    }

    y(rate) {
        return this.floor - RATE_HEIGHT * (Number(rate) / this.rateOne / this.most);
    }

    lane(name) {
        return LANES_TOP + (LANES.indexOf(name) + 0.5) * LANE_HEIGHT;
    }
}

function laneLines(scale) {
    return LANES.map((name) => {
        const y = scale.lane(name), label = LANE_LABELS[name] ?? name;
        return drawn("g", {},
            drawn("path", { class: "lane", d: `M${scale.left} ${y}H${scale.right}` }),
            drawn("text", { x: scale.left - 10, y: y + 4, "text-anchor": "end" }, label));
    });
}

function cellStrokes(cells, scale) {
    return LANES.slice(0, 3).map((name) => {
        const top = scale.lane(name) - 0.34 * LANE_HEIGHT;
        const strokes = cells.filter((cell) => KINDS[cell.kind] === name)
            .map((cell) => `M${scale.x(cell.time).toFixed(1)} ${top}v${0.68 * LANE_HEIGHT}`);
        return drawn("path", { class: `stroke ${name}`, d: strokes.join("") });
    });
}

/* The least time after each cell, which the next one keeps or not. */
function gapBars(cells, scale) {
    const y = scale.lane("gap"), bars = { kept: "", missed: "" };
    cells.slice(1).forEach((cell, place) => {
        const begin = scale.x(cells[place].time), missed = cell.gap === null || cell.passed < cell.gap;
        const end = cell.gap === null ? scale.right : scale.x(cells[place].time + cell.gap);
        const to = Math.max(end - 1, begin + 2);
        bars[missed ? "missed" : "kept"] += `M${(begin + 1).toFixed(1)} ${y}H${to.toFixed(1)}`;
    });
    return Object.entries(bars).map(([name, d]) => drawn("path", { class: `bar ${name}`, d }));
}

/* Where a forward cell was due: a mark, filled if the cell there is one. */
function dueMarks(cells, scale, engine) {
    const y = scale.lane("due");
    return cells.filter((cell) => cell.due !== null).map((cell) => {
        const mark = cell.kind === engine.ABR_SENT_FORWARD ? "due met" : "due missed";
        return drawn("circle", { class: mark, cx: scale.x(cell.time).toFixed(1), cy: y, r: 4.5 });
    });
}

function rateLine(cells, scale) {
    const points = cells.map((cell, place) => {
        const x = scale.x(cell.time).toFixed(1), y = scale.y(cell.rate).toFixed(1);
        return place === 0 ? `M${x} ${y}` : `V${y}H${x}`;
    });
    if (scale.span === 0) points[0] = `M${scale.left} ${scale.y(cells[0].rate).toFixed(1)}H${scale.right}`;
    const most = scale.most.toLocaleString("en", { maximumFractionDigits: 0 });
    const at = (y, words) => drawn("text", { x: scale.left - 10, y: y + 4, "text-anchor": "end" }, words);
    return drawn("g", {},
        drawn("path", { class: "grid", d: `M${scale.left} ${scale.rateTop}H${scale.right}` }),
        drawn("path", { class: "axis", d: `M${scale.left} ${scale.floor}H${scale.right}` }),
        drawn("path", { class: "rate", d: points.join("") }),
        drawn("text", { x: scale.left, y: scale.rateTop - 9 }, "rate before each cell, cells/s"),
        at(scale.rateTop, most), at(scale.floor, "0"));
}

function timeTick(scale, x, words) {
    const anchor = x > scale.right - 30 ? "end" : "middle";
    return [drawn("path", { class: "axis", d: `M${x.toFixed(1)} ${scale.floor}v5` }),
        drawn("text", { x: x.toFixed(1), y: scale.floor + 20, "text-anchor": anchor }, words)];
}

function timeAxis(scale) {
    const alone = `${thousands(scale.origin)} ns`;
    if (scale.span === 0) return drawn("g", {}, timeTick(scale, scale.x(scale.origin), alone));
    const begin = Number(scale.origin), most = (scale.right - scale.left) / 80, ticks = [];
    const step = Math.max(1, roundStep(scale.span / most)), [unit, name] = TIME_UNITS.find(([size]) => step >= size);
    for (let tick = Math.ceil(begin / step) * step; tick <= begin + scale.span; tick += step) {
        const x = scale.left + (scale.right - scale.left) * ((tick - begin) / scale.span);
        const words = `${(tick / unit).toLocaleString("en", { maximumFractionDigits: 6 })} ${name}`;
        ticks.push(...timeTick(scale, x, words));
    }
    return drawn("g", {}, ticks);
}

/* A mark at a cell that is shown: the one that breaks a rule, or one that was sought. */
function cellMark(cells, scale, number, sort, words) {
    const cell = cells.find((each) => each.number === number);
    if (!cell) return null;
    const x = scale.x(cell.time), middle = (scale.left + scale.right) / 2;
    const anchor = x > middle ? { x: x + 7, "text-anchor": "end" } : { x: x - 7, "text-anchor": "start" };
    return drawn("g", { class: sort },
        drawn("rect", { x: x - 7, y: LANES_TOP - 6, width: 14, height: LANES.length * LANE_HEIGHT + 6, rx: 3 }),
        drawn("path", { d: `M${x} ${scale.rateTop}V${scale.floor}` }),
        drawn("text", { ...anchor, y: LANES_TOP - 13 }, words));
}

/* The picture, as wide as its place. */
function tracePicture(engine, { cells, verdict, sought }, width) {
    const scale = new TraceScale(cells, width, engine.ABR_RATE_ONE), height = scale.floor + AXIS_HEIGHT;
    const words = `Cells ${thousands(cells[0].number)} to ${thousands(cells[cells.length - 1].number)} over time`;
    const broken = Number(verdict.cell), breaks = `cell ${thousands(broken)} breaks rule ${verdict.rule}`;
    const mark = (number, sort, said) => cellMark(cells, scale, number, sort, said);
    return drawn("svg", { width, height, viewBox: `0 0 ${width} ${height}`, role: "img", "aria-label": words },
        sought === broken ? null : mark(sought, "sought", `cell ${thousands(sought ?? 0)}`),
        mark(broken, "broken", breaks), laneLines(scale), gapBars(cells, scale), cellStrokes(cells, scale),
        dueMarks(cells, scale, engine), rateLine(cells, scale), timeAxis(scale));
}
