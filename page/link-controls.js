/*
 * The controls of a link: a field for each value of the network and of the connections, and beside each connection what
 * it has done. A field calls change(connection, name, value, dragged), with 0 for the network; what it answers is an
 * error. After that it calls change.settle().
 */

const CHOICES = {
    data: ["none", "greedy", "bursts", "trickle"],
    level: ["no mark", "NI: no increase", "CI: congestion"],
};
const SLIDERS = ["lag", "cdvt", "loss", "share"], CHECKED = ["open", "zero"];
const DATA_FIELDS = { burst: BURSTS, every: BURSTS, rate: TRICKLE };
const CONTRACT_FIELDS = ["pcr", "mcr", "icr"];
const MORE_FIELDS = ["members", "n", "r", "d", "c", "tbe", "frtt", "adtf", "trm"], ER_MOST = 4000000;
const ER_TITLE = "ER of a backward cell";

/* A value in words. */
function valueText(name, value) {
    if (CHECKED.includes(name)) return value === 1 ? "yes" : "no";
    return name in CHOICES ? CHOICES[name][value] : value.toLocaleString("en");
}

/* A change of a value in words. */
function changeText({ time, connection, name, value }) {
    const fields = connection === 0 ? NETWORK_FIELDS : CONNECTION_FIELDS, title = fields[name]?.[3] ?? ER_TITLE;
    const whose = connection === 0 ? "" : `connection ${connection}, `;
    return `at ${(time / 1000).toLocaleString("en")} ms ${whose}${title}: ${valueText(name, value)}`;
}

/* Whether an input has a whole number within bounds; what is wrong is said. */
function numberError({ value, type }, least, most) {
    const number = Number(value), whole = value !== "" && Number.isInteger(number) && number >= least && number <= most;
    if (type === "checkbox" || whole) return null;
    return `a whole number from ${least.toLocaleString("en")} to ${most.toLocaleString("en")}`;
}

/* Marks an input as wrong and says why in the place for it, or takes both away. */
function markWrong(input, place, wrong) {
    if (wrong === null) input.removeAttribute("aria-invalid");
    else input.setAttribute("aria-invalid", "true");
    if (place.textContent !== (wrong ?? "")) place.textContent = wrong ?? "";
}

/* Where it is said what is wrong with an input. */
const wrongPlace = (id) => element("span", { class: "fault", id: `${id}-wrong`, role: "alert" });

/* One value. */
class Field {
    constructor(number, name, change) {
        const [, least, most, title, unit] = (number === 0 ? NETWORK_FIELDS : CONNECTION_FIELDS)[name];
        Object.assign(this, { number, name, least, most, change });
        this.called = number === 0 ? title : `connection ${number}, ${title}`;
        this.flag = CHECKED.includes(name);
        this.id = `link-${number}-${name}`;
        this.input = this.makeInput();
        this.shown = SLIDERS.includes(name) ? element("output", { for: this.id }) : null;
        this.place = wrongPlace(this.id);
        this.listen();
        const label = element("label", { for: this.id }, title, unit ? element("small", {}, ` ${unit}`) : null);
        const kind = this.flag ? "field flag" : this.shown ? "field slider" : "field";
        this.element = element("div", { class: kind }, label, this.input, this.shown, this.place);
    }

    makeInput() {
        const { id, name, least, most } = this, described = { id, "aria-describedby": `${id}-wrong` };
        if (this.flag) return element("input", { ...described, type: "checkbox" });
        if (name in CHOICES) {
            const options = CHOICES[name].map((text, value) => element("option", { value }, text));
            return element("select", described, options);
        }
        const type = SLIDERS.includes(name) ? "range" : "number";
        return element("input", { ...described, type, min: least, max: most, step: 1 });
    }

    /* A slider acts while it is dragged; dragged is true until its value is in force. */
    listen() {
        const act = () => {
            this.dragged = this.shown !== null;
            this.tell(this.input.value);
            this.changed();
        };
        this.input.addEventListener("change", act);
        if (this.shown) this.input.addEventListener("input", act);
    }

    get value() { return this.flag ? Number(this.input.checked) : Number(this.input.value); }
    get wrong() { return this.input.getAttribute("aria-invalid") === "true"; }

    mark(wrong) { markWrong(this.input, this.place, wrong); }

    /* Tries to bring what is in the box into force. */
    attempt() {
        const { input, least, most, number, name, value, dragged } = this, wrong = numberError(input, least, most);
        this.mark(wrong === null ? this.change(number, name, value, dragged) : `${this.called}: ${wrong}`);
    }

    changed() {
        this.attempt();
        this.change.settle();
    }

    /* Forgets what is not in force. */
    forget() {
        this.dragged = false;
        this.mark(null);
    }

    /* Whether what was refused is right now, since another box has changed. */
    retry() {
        if (!this.wrong) return false;
        this.attempt();
        return !this.wrong;
    }

    tell(value) { if (this.shown) this.shown.textContent = Number(value).toLocaleString("en"); }

    /* Shows a value, but not in the place of one that is being typed or was refused. */
    show(value) {
        if (this.wrong) return;
        if (this.dragged && this.value !== value) {
            this.changed();
            return;
        }
        this.dragged = false;
        if (document.activeElement === this.input && !this.flag && this.input.type !== "select-one") return;
        this.tell(value);
        if (this.value === value && this.input.value !== "") return;
        if (this.flag) this.input.checked = value === 1;
        else this.input.value = String(value);
    }
}

/* The network's values. */
class NetworkControls {
    constructor(change) {
        this.fields = Object.keys(NETWORK_FIELDS).map((name) => new Field(0, name, change));
        [this.counted, this.full, this.lost] = ["span", "span", "span"].map((name) => element(name));
        this.warning = element("p", { class: "message", role: "status" });
        this.element = element("section", { class: "panel" }, element("h2", {}, "Line and network"),
            element("div", { class: "link-fields" }, this.fields.map((field) => field.element)),
            element("p", { class: "note live-line" }, this.counted, this.full, this.lost), this.warning);
    }

    show(network) {
        const { port, near } = network, text = (number) => number.toLocaleString("en");
        this.fields.forEach((field) => field.show(network.values[field.name]));
        this.counted.textContent = `${text(network.slots)} slots, ${text(near.idle)} idle. In the network: ` +
            `queued ${text(port.queue.count)}, marked ${text(port.marked)}, `;
        this.full.textContent = `lost to a full buffer ${text(port.full)}`;
        this.full.classList.toggle("wrong", port.full > 0);
        this.lost.textContent = `, RM cells lost ${text(port.lost)}.`;
        const minimums = Math.ceil(port.minimums / RATE_ONE), warned = minimums <= network.values.port ? ""
            : `The minimums together, ${text(minimums)} cells/s, are more than the port has: it cannot deliver them.`;
        if (this.warning.textContent !== warned) this.warning.textContent = warned;
    }
}

/* What a connection has done: a name, a text, and whether it is bad. The minimum is due where data always waits. */
function connectionNumbers(network, it) {
    const text = (number) => number.toLocaleString("en"), [, forward, turned, data] = it.sent;
    const of = (cells, due) => it.mcr === 0 ? "none" : `${text(cells)} of ${text(due)}`;
    const greedy = it.values.data === GREEDY;
    return [
        ["Allowed", `${text(Math.round(it.acr / RATE_ONE))} cells/s`, false],
        ["Sent", `${text(forward)} F, ${text(turned)} T, ${text(data)} D`, false],
        ["Delivered", `${text(it.arrived - it.delivered)} RM, ${text(it.delivered)} D`, false],
        ["Minimum sent", of(it.cellsSent, network.promised(it)), greedy && network.missing(it) > 0],
        ["and delivered", of(it.arrived, network.due(it)), greedy && network.undelivered(it) > 0],
        ["Waiting", `${text(it.waiting.reduce((sum, cells) => sum + cells, 0))} D`, false],
        ["Policer", `would drop ${text(it.policer.dropped)}`, it.policer.dropped > 0],
        ["Out of rate", text(it.outside), false],
    ];
}

/* A connection: its contract, its data, and what it has done. */
class ConnectionControls {
    constructor(number, change) {
        const make = (name) => new Field(number, name, change);
        this.number = number;
        this.open = make("open");
        this.data = make("data");
        this.dataFields = Object.keys(DATA_FIELDS).map(make);
        const contract = CONTRACT_FIELDS.map(make), more = MORE_FIELDS.map(make), zero = make("zero");
        this.fields = [this.open, ...contract, this.data, ...this.dataFields, zero, ...more];
        this.numbers = element("dl", { class: "live" });
        const grid = (fields) => element("div", { class: "link-fields" }, fields.map((field) => field.element));
        const details = element("details", {}, element("summary", {}, "More"), grid(more), this.explicitRate(change));
        this.body = element("div", {}, grid(contract), grid([this.data, ...this.dataFields]), zero.element,
            this.numbers, details);
        const swatch = element("span", { class: "swatch", style: `background: var(--c${number - 1})` });
        const title = element("h2", {}, swatch, `Connection ${number}`);
        this.element = element("section", { class: "panel connection", "aria-label": `Connection ${number}` },
            element("div", { class: "connection-head" }, title, this.open.element), this.body);
    }

    /* A backward cell from the network, once. */
    explicitRate(change) {
        const id = `link-${this.number}-er`, place = wrongPlace(id);
        const input = element("input", { id, type: "number", min: 0, max: ER_MOST, value: 500,
            "aria-describedby": `${id}-wrong` });
        const send = () => {
            const wrong = numberError(input, 0, ER_MOST);
            markWrong(input, place, wrong === null ? change(this.number, "er", Number(input.value))
                : `connection ${this.number}, ER: ${wrong}`);
        };
        input.addEventListener("input", () => markWrong(input, place, null));
        const label = element("label", { for: id }, ER_TITLE, element("small", {}, " cells/s"));
        const button = element("button", { type: "button", onclick: send }, "Send it");
        return element("div", { class: "once" }, label, input, button, place);
    }

    show(network) {
        const it = network.connections[this.number - 1];
        this.fields.forEach((field) => field.show(it.values[field.name]));
        this.body.hidden = !it.open;
        this.dataFields.forEach((field) => { field.element.hidden = it.values.data !== DATA_FIELDS[field.name]; });
        if (!it.open) return;
        const pairs = connectionNumbers(network, it);
        if (this.numbers.children.length === 0) {
            this.numbers.append(...pairs.map(([name]) => element("div", {}, element("dt", {}, name), element("dd"))));
        }
        pairs.forEach(([, text, bad], place) => {
            const at = this.numbers.children[place].lastChild;
            if (at.textContent !== text) at.textContent = text;
            at.classList.toggle("wrong", bad);
        });
    }
}
