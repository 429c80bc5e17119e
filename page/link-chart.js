/* What is drawn of a link over time, and a canvas with axes to draw it on. */

const SAMPLES = 600, SLOTS_KEPT = 128;
const MARGIN = { left: 58, right: 16, top: 16, bottom: 22 };

/* A share in cells per second; the largest rate is no limit, and not drawn. */
const shareShown = (share, largest) => share >= largest ? NaN : share / RATE_ONE;

/* What is drawn over time: SAMPLES instants of the time shown, the oldest given up first. */
class Samples {
    constructor(span) {
        this.span = span * 1e6;
        this.times = new Float64Array(SAMPLES);
        this.queue = new Float64Array(SAMPLES);
        this.share = new Float64Array(SAMPLES);
        const rows = () => Array.from({ length: CONNECTIONS }, () => new Float64Array(SAMPLES));
        [this.acr, this.missing] = [rows(), rows()];
        this.first = this.count = this.next = 0;
        this.slots = [];
    }

    /* Looks at the network after a slot. */
    see(network) {
        const { kind, connection, conforms, outside } = network.last;
        this.slots.push({ kind, number: connection === null ? 0 : connection.vpi + 1, conforms, outside });
        if (this.slots.length > SLOTS_KEPT) this.slots.shift();
        if (network.now < this.next) return;
        this.next = network.now + this.span / SAMPLES;
        const place = (this.first + this.count) % SAMPLES;
        if (this.count < SAMPLES) this.count++;
        else this.first = (this.first + 1) % SAMPLES;
        this.keep(place, network);
    }

    keep(place, network) {
        const { now, port, connections, values } = network;
        this.times[place] = now;
        this.queue[place] = port.queue.count;
        this.share[place] = values.share === 0 ? NaN : shareShown(port.share(now), port.largest);
        connections.forEach((it, which) => {
            this.acr[which][place] = it.open ? it.acr / RATE_ONE : NaN;
            this.missing[which][place] = it.open && it.values.data === GREEDY ? network.undelivered(it) : NaN;
        });
    }

    /* The values of a row in the order of time. */
    each(row, visit) {
        for (let place = 0; place < this.count; place++) {
            const at = (this.first + place) % SAMPLES;
            visit(this.times[at], row[at]);
        }
    }
}

/* The colours of the page, as they are now. */
function coloursOf(node) {
    const style = getComputedStyle(node), colour = (name) => style.getPropertyValue(`--${name}`).trim();
    const names = ["ink", "muted", "grid", "panel", "bad", "idle"];
    const found = Object.fromEntries(names.map((name) => [name, colour(name)]));
    return { ...found, connections: Array.from({ length: CONNECTIONS }, (_, place) => colour(`c${place}`)) };
}

/* The least of 1, 2, 5, 10, 20 and so on that is not below a value above 0. */
function roundStep(value) {
    const power = 10 ** Math.floor(Math.log10(value));
    return [1, 2, 5, 10].map((factor) => factor * power).find((step) => step >= value * 0.999);
}

const NUMBER = 13; /* pixels of a line's number */
const TURN = 7; /* of lines that lie on each other each is seen for so many pixels in turn */

/* A canvas with axes: time to the right, a value upwards. */
class Chart {
    constructor(title, height) {
        this.height = height;
        this.gutter = 0; /* at the right, for the contracts */
        this.canvas = element("canvas", { role: "img", "aria-label": title });
        this.figure = element("figure", {}, element("figcaption", {}, title), this.canvas);
    }

    /* Makes the canvas as wide as its place, and empties it. */
    clear() {
        const { canvas, height } = this, width = Math.max(200, this.figure.clientWidth), ratio = devicePixelRatio || 1;
        if (canvas.width !== Math.round(width * ratio) || canvas.height !== Math.round(height * ratio)) {
            canvas.width = Math.round(width * ratio);
            canvas.height = Math.round(height * ratio);
            canvas.style.height = `${height}px`;
        }
        const context = canvas.getContext("2d");
        context.setTransform(ratio, 0, 0, ratio, 0, 0);
        context.clearRect(0, 0, width, height);
        context.font = "12px system-ui, sans-serif";
        this.width = width;
        return context;
    }

    /* Draws the axes for times from one to another and values up to one. */
    axes(colours, from, to, most) {
        const context = this.clear(), right = this.width - MARGIN.right - this.gutter;
        const floor = this.height - MARGIN.bottom;
        const step = Math.max(1, roundStep(most / (this.height > 140 ? 5 : 2))), top = step * Math.ceil(most / step);
        this.x = (time) => MARGIN.left + (right - MARGIN.left) * (time - from) / (to - from);
        this.y = (value) => floor - (floor - MARGIN.top) * value / top;
        Object.assign(this, { context, right, floor });
        context.lineWidth = 1;
        context.textBaseline = "middle";
        for (let value = 0; value <= top; value += step) this.horizontal(colours, value);
        this.timeLabels(colours, from, to);
        context.save();
        context.beginPath();
        context.rect(MARGIN.left, 0, right - MARGIN.left, this.height);
        context.clip();
    }

    horizontal(colours, value) {
        const { context } = this, y = Math.round(this.y(value)) + 0.5;
        context.strokeStyle = value === 0 ? colours.muted : colours.grid;
        context.beginPath();
        context.moveTo(MARGIN.left, y);
        context.lineTo(this.right, y);
        context.stroke();
        context.fillStyle = colours.muted;
        context.textAlign = "right";
        context.fillText(value.toLocaleString("en"), MARGIN.left - 6, y);
    }

    /* A label at every round time; the last says the unit. */
    timeLabels(colours, from, to) {
        const { context, floor } = this, every = roundStep((to - from) / (this.width < 500 ? 3 : 6));
        context.fillStyle = colours.muted;
        context.textAlign = "center";
        for (let time = Math.ceil(from / every) * every; time <= to; time += every) {
            const x = Math.round(this.x(time)) + 0.5;
            context.strokeStyle = colours.grid;
            context.beginPath();
            context.moveTo(x, MARGIN.top);
            context.lineTo(x, floor);
            context.stroke();
            if (x < this.right - 26) context.fillText((time / 1e6).toLocaleString("en"), x, floor + 12);
        }
        context.textAlign = "right";
        context.fillText("ms", this.right, floor + 12);
    }

    /* A line of steps; a NaN ends it. */
    line(samples, row, colour, dash = [], offset = 0) {
        const { context } = this;
        let before = NaN;
        context.strokeStyle = colour;
        context.lineWidth = 2;
        context.setLineDash(dash);
        context.lineDashOffset = offset;
        context.beginPath();
        samples.each(row, (time, value) => {
            const [x, y] = [Math.round(this.x(time)), Math.round(this.y(value))];
            if (Number.isNaN(before)) context.moveTo(x, y);
            else context.lineTo(x, before);
            if (!Number.isNaN(y)) context.lineTo(x, y);
            before = y;
        });
        context.stroke();
        context.setLineDash([]);
    }

    /* A line for each connection, and its number where it is now. */
    lines(samples, rows, colours) {
        const last = (samples.first + samples.count - 1) % SAMPLES, drawn = [...rows.keys()];
        const open = drawn.filter((which) => samples.count > 0 && !Number.isNaN(rows[which][last]));
        for (const which of drawn) this.line(samples, rows[which], colours.connections[which]);
        const dash = [TURN, TURN * (open.length - 1)];
        open.forEach((which, turn) => this.line(samples, rows[which], colours.connections[which], dash, -TURN * turn));
        this.names(samples, open.map((which) => [which, rows[which]]), last, colours);
    }

    /* The number of each line on its end, or so much before it that it stands on no other number. */
    names(samples, lines, last, colours) {
        const { context } = this, placed = [], end = this.x(samples.times[last]) - 4;
        const free = (at) => placed.every(({ x, y }) => Math.abs(x - at.x) >= NUMBER || Math.abs(y - at.y) >= NUMBER);
        context.textAlign = "center";
        context.font = "600 12px system-ui, sans-serif";
        context.strokeStyle = colours.panel;
        context.lineWidth = 4;
        for (const [which, row] of lines) {
            const places = lines.map((_, before) => this.placeOn(samples, row, end - NUMBER * before));
            const at = places.find(free) ?? places[0];
            placed.push(at);
            context.fillStyle = colours.connections[which];
            context.strokeText(String(which + 1), at.x, at.y);
            context.fillText(String(which + 1), at.x, at.y);
        }
        context.font = "12px system-ui, sans-serif";
    }

    /* A place on a line, at an x or where the line begins, and within the plot. */
    placeOn(samples, row, x) {
        let [at, value] = [0, NaN];
        samples.each(row, (time, here) => {
            if (Number.isNaN(here) || (this.x(time) > x && !Number.isNaN(value))) return;
            [at, value] = [this.x(time), here];
        });
        return { x: Math.max(x, at), y: Math.min(Math.max(this.y(value), MARGIN.top), this.floor - 4) };
    }

    end() { this.context.restore(); }
}
