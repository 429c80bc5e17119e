/* The tab's view of the switch: its runs, made in slices, and four pictures of what it sends and loses. */

const SWITCH_SLOTS = [20000, 200000], SLICE = 500, SLICE_WORK = 30;
const SWITCH_FIELDS = {
    capacity: [5, 5, 8, "Buffer in the upper pictures", "cells"],
    traffic: [50, 50, 100, "Traffic in the lower pictures", "%"],
    lower: [1, 1, 3, "Lower threshold", "cells"],
    below: [2, 1, 4, "Upper threshold below capacity by", "cells"],
    measure: [0, 0, 1, "Measure", ""],
    long: [0, 0, 1, "Slots of a run", ""],
};
const SWITCH_TEXTS = {
    measure: ["cells a slot", "the paper's"],
    long: ["20,000", "200,000, ten times as long"],
};
const PLOT = { height: 224, left: 52, right: 14, top: 12, bottom: 40, beside: 700 };

/* A picture of three lines, one for each switch. Its values begin where the lowest is. */
function switchPicture(width, title, unit, xs, rows) {
    const { height, left, right, top, bottom } = PLOT, first = xs[0], last = xs[xs.length - 1];
    const least = Math.min(...rows.flat()), most = Math.max(...rows.flat(), least + 0.001);
    const step = roundStep((most - least) / 4);
    const [low, high] = [Math.floor(least / step + 1e-9) * step, Math.ceil(most / step - 1e-9) * step];
    const x = (value) => left + (width - left - right) * (value - first) / (last - first);
    const y = (value) => height - bottom - (height - bottom - top) * (value - low) / (high - low);
    const picture = drawn("svg", { width, height, role: "img", "aria-label": title });
    const text = (at, down, anchor, words) => drawn("text", { x: at, y: down, "text-anchor": anchor }, words);
    for (let value = low; value < high + step / 2; value += step) {
        const at = { x1: left, x2: width - right, y1: y(value), y2: y(value) };
        picture.append(drawn("line", { class: value === low ? "axis" : "grid", ...at }),
            text(left - 12, y(value) + 4, "end", String(Number(value.toFixed(5)))));
    }
    picture.append(...xs.map((value) => text(x(value), height - bottom + 21, "middle", String(value))));
    picture.append(text((left + width - right) / 2, height - 2, "middle", unit));
    rows.forEach((row, which) => picture.append(...switchLine(row, xs, x, y, which)));
    return element("figure", {}, element("figcaption", {}, title), picture);
}

/* A line and its points; each switch has its colour, dashes and mark. */
function switchLine(row, xs, x, y, which) {
    const colour = `var(--c${[1, 2, 0][which]})`, places = row.map((value, place) => [x(xs[place]), y(value)]);
    const points = places.map((at) => at.map((part) => part.toFixed(1)).join(",")).join(" ");
    const line = drawn("polyline", { points, fill: "none", style: `stroke: ${colour}`, "stroke-width": 2,
        "stroke-dasharray": ["", "6 3", "2 2"][which] });
    return [line, ...places.map((at) => switchMark(which, at, `fill: ${colour}`))];
}

/* Circle, square or triangle. */
function switchMark(which, [x, y], style) {
    if (which === 0) return drawn("circle", { cx: x, cy: y, r: 4, style });
    if (which === 1) return drawn("rect", { x: x - 3.5, y: y - 3.5, width: 7, height: 7, style });
    return drawn("path", { d: `M${x} ${y - 5}l5 8.5h-10z`, style });
}

class SwitchView {
    static title = "A switch with and without ABR";
    static text = `The switch of M. Bernardo's paper on EMPA: two inputs, two outputs, a small buffer at each output.
        Without ABR the cells of two inputs that meet at one output are lost when its buffer is full. With our sources
        the switch tells them to slow down when the upper threshold is reached: the cells wait at the source instead,
        and none is lost. The paper's second switch has connections of both services, and loses cells of those without
        ABR.`.replace(/\s+/g, " ");

    constructor(engine, save) {
        Object.assign(this, { engine, save, results: [], started: 0 });
        this.values = defaults(SWITCH_FIELDS);
        this.inputs = Object.keys(SWITCH_FIELDS).map((name) => this.field(name));
        this.progress = element("progress", { max: 1, value: 0, "aria-label": "Runs of the switch" });
        this.doing = element("p", { class: "doing" }, this.progress, element("span", {}, "the switch is run"));
        this.pictures = element("div", { class: "switch-pictures" });
        this.numbers = element("div", { class: "scroll" });
        const fields = element("div", { class: "link-fields switch-fields" }, this.inputs.map(({ field }) => field));
        const title = element("h2", {}, "The paper's three observations");
        const all = element("details", {}, element("summary", {}, "All numbers"), this.numbers);
        this.observed = element("div", { class: "observed" });
        this.element = element("div", { hidden: true },
            element("div", { class: "panel" }, fields, this.doing, this.legend(), this.pictures),
            element("div", { class: "panel" }, title, this.observed, all));
    }

    field(name) {
        const [, least, most, title, unit] = SWITCH_FIELDS[name], id = `switch-${name}`;
        const step = name === "traffic" ? 10 : 1, values = [];
        for (let value = least; value <= most; value += step) values.push(value);
        const text = (value) => SWITCH_TEXTS[name]?.[value] ?? String(value);
        const input = element("select", { id, onchange: () => this.set(name, Number(input.value)) },
            values.map((value) => element("option", { value }, text(value))));
        const label = element("label", { for: id }, title, element("small", {}, ` ${unit}`));
        return { name, input, field: element("div", { class: "field" }, label, input) };
    }

    legend() {
        const mark = (which) => drawn("svg", { width: 14, height: 14, viewBox: "-7 -7 14 14", "aria-hidden": "true" },
            switchMark(which, [0, 0], `fill: var(--c${[1, 2, 0][which]})`));
        const names = SWITCH_NAMES.map((name, which) => element("span", {}, mark(which), name));
        return element("p", { class: "legend" }, names);
    }

    /* The values of an address; what is not among them has its default, and what is no value is an error. */
    read(parts) {
        const values = defaults(SWITCH_FIELDS);
        for (const part of parts.filter((each) => each !== "")) {
            const [name, text] = part.split("="), known = this.inputs.find((each) => each.name === name);
            if (!known) throw new Error(`"${part}" names no setting of the switch`);
            const offered = [...known.input.options].map(({ value }) => value);
            if (!offered.includes(text)) throw new Error(`"${part}": one of ${offered.join(", ")}`);
            values[name] = Number(text);
        }
        return values;
    }

    load(values) {
        this.values = values;
        this.inputs.forEach(({ name, input }) => { input.value = String(values[name]); });
        this.keep();
        this.start();
    }

    /* Puts what is no default into the address. */
    keep() {
        const changed = Object.keys(this.values).filter((each) => this.values[each] !== SWITCH_FIELDS[each][0]);
        this.save(["scene=switch", ...changed.map((each) => `${each}=${this.values[each]}`)].join("&"));
    }

    set(name, value) {
        this.values[name] = value;
        this.keep();
        this.start();
    }

    /* All runs, in slices between which the page lives. What was drawn before stays until they are made. */
    async start() {
        const { lower, below, long } = this.values, made = `${lower} ${below} ${long}`, started = ++this.started;
        this.doing.hidden = this.made === made;
        if (this.made === made) {
            this.draw();
            return;
        }
        this.tables ??= [0, 1, 2, 3].map(() => this.engine.newTable());
        const runs = switchRuns({ lower, below }), results = [], slots = SWITCH_SLOTS[long];
        let until = performance.now() + SLICE_WORK;
        for (const run of runs) {
            const it = new SwitchRun(this.engine, this.tables, run);
            while (it.slot < slots) {
                it.run(SLICE);
                if (performance.now() < until) continue;
                this.progress.value = (results.length + it.slot / slots) / runs.length;
                await new Promise((resolve) => { setTimeout(resolve); });
                if (started !== this.started) return;
                until = performance.now() + SLICE_WORK;
            }
            results.push({ run, counts: { sent: it.sent, lost: it.lost, data: it.data, marks: it.marks } });
        }
        Object.assign(this, { results, made, slots });
        this.doing.hidden = true;
        this.draw();
    }

    point(which, name, capacity, traffic) {
        return switchMeasure(this.results, this.slots, this.values.measure, { which, name, capacity, traffic });
    }

    draw() {
        if (this.results.length === 0) return;
        const { capacity, traffic } = this.values;
        const each = (values, at) => SWITCH_NAMES.map((_, which) => values.map((value) => at(which, value)));
        const byTraffic = (name) => each(TRAFFICS, (which, value) => this.point(which, name, capacity, value));
        const byCapacity = (name) => each(CAPACITIES, (which, value) => this.point(which, name, value, traffic));
        const measure = [" a slot", ", the paper's measure"][this.values.measure];
        const [sent, lost] = [`Cells sent${measure}`, `Cells lost${measure}`];
        const all = this.pictures.clientWidth;
        const width = Math.floor(all > PLOT.beside ? (all - 24) / 2 : Math.max(280, all));
        const picture = (...words) => switchPicture(width, ...words);
        this.pictures.replaceChildren(
            picture(`${sent}, by traffic (buffer ${capacity})`, "traffic, %", TRAFFICS, byTraffic("sent")),
            picture(`${lost}, by traffic (buffer ${capacity})`, "traffic, %", TRAFFICS, byTraffic("lost")),
            picture(`${sent}, by buffer (traffic ${traffic} %)`, "buffer, cells", CAPACITIES, byCapacity("sent")),
            picture(`${lost}, by buffer (traffic ${traffic} %)`, "buffer, cells", CAPACITIES, byCapacity("lost")));
        this.numbers.replaceChildren(this.table());
        this.observed.replaceChildren(switchObserved(this.results, this.slots));
    }

    table() {
        const cell = (which, capacity, traffic) =>
            ["sent", "lost"].map((name) => this.point(which, name, capacity, traffic).toFixed(4)).join(" / ");
        const row = (which, capacity) => element("tr", {},
            element("th", { scope: "row" }, `${SWITCH_NAMES[which]}, buffer ${capacity}`),
            TRAFFICS.map((traffic) => element("td", {}, cell(which, capacity, traffic))));
        const head = element("tr", {}, element("th", {}, "sent / lost"),
            TRAFFICS.map((traffic) => element("th", { scope: "col" }, `${traffic} %`)));
        const rows = SWITCH_NAMES.flatMap((_, which) => CAPACITIES.map((capacity) => row(which, capacity)));
        return element("table", { class: "numbers switch-numbers" }, element("thead", {}, head),
            element("tbody", {}, rows));
    }
}
