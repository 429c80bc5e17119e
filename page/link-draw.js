/* The drawings of a link: allowed rates, cells missing, the queue, and the last slots. */

const BAR = 11, LEAST = 11, CELL = { width: 17, height: 34 };
const MISSING_TITLE = "Cells that the contract's minimum promised a round trip ago and that have not been delivered, " +
    "where data always waits";
const KIND_LETTERS = ["", "F", "T", "D"];

/* The allowed rates; at the right each contract from MCR to PCR, with the rate now. */
class RatesChart extends Chart {
    constructor() {
        super("Allowed rates, cells per second; dashed in grey the share above the minimum. At the right each " +
            "contract: a bar from minimum to peak, with a tick at the rate now", 230);
    }

    draw(colours, samples, network, from, to) {
        const open = network.connections.filter((it) => it.open);
        this.axes(colours, from, to, open.reduce((most, it) => Math.max(most, it.pcr / RATE_ONE), 1));
        this.line(samples, samples.share, colours.muted, [5, 4]);
        this.lines(samples, samples.acr, colours);
        this.end();
        open.forEach((it) => this.contract(colours, it));
    }

    contract(colours, it) {
        const { context } = this, x = this.right + 10 + it.vpi * BAR;
        context.fillStyle = colours.connections[it.vpi];
        context.globalAlpha = 0.35;
        const high = this.y(it.pcr / RATE_ONE), low = this.y(it.mcr / RATE_ONE), more = Math.max(0, LEAST - low + high);
        context.fillRect(x, high - more / 2, BAR - 3, low - high + more);
        context.globalAlpha = 1;
        context.fillRect(x - 1, this.y(it.acr / RATE_ONE) - 1.5, BAR - 1, 3);
        context.fillStyle = colours.muted;
        context.textAlign = "center";
        context.fillText(String(it.vpi + 1), x + (BAR - 3) / 2, this.floor + 12);
    }
}

/* The cells that greedy connections are behind the minimum of their contracts, a round trip later. */
class MissingChart extends Chart {
    constructor() { super(MISSING_TITLE, 120); }

    draw(colours, samples, network, from, to) {
        let most = 5;
        samples.missing.forEach((row) => samples.each(row, (time, value) => { if (value > most) most = value; }));
        this.axes(colours, from, to, most);
        this.lines(samples, samples.missing, colours);
        this.end();
    }
}

/* The queue in the network. */
class QueueChart extends Chart {
    constructor() { super("Queue in the network, cells", 120); }

    draw(colours, samples, network, from, to) {
        let most = 4;
        samples.each(samples.queue, (time, value) => { if (value > most) most = value; });
        this.axes(colours, from, to, most);
        this.line(samples, samples.queue, colours.ink);
        const { efci } = network.values;
        if (efci > 0) this.threshold(colours, efci);
        this.end();
    }

    threshold(colours, value) {
        const { context } = this;
        context.strokeStyle = colours.bad;
        context.lineWidth = 1;
        context.setLineDash([4, 3]);
        context.beginPath();
        context.moveTo(MARGIN.left, this.y(value));
        context.lineTo(this.right, this.y(value));
        context.stroke();
        context.setLineDash([]);
    }
}

/* The last slots, a box each: the connection by colour and number, the kind by a letter; underlined in red what the
 * policer would drop. */
class SlotsRow extends Chart {
    constructor() {
        super("The last slots: F forward, T turned, D data, x out of rate, empty idle; a red bar under what the " +
            "policer would drop", 58);
    }

    draw(colours, samples) {
        const context = this.clear(), fits = Math.floor((this.width - 2) / CELL.width);
        context.textAlign = "center";
        context.textBaseline = "middle";
        samples.slots.slice(-fits).forEach((slot, place) => this.box(context, colours, slot, 1 + place * CELL.width));
    }

    box(context, colours, { kind, number, conforms, outside }, x) {
        const middle = x + (CELL.width - 2) / 2, used = number > 0;
        context.fillStyle = used ? colours.connections[number - 1] : colours.idle;
        context.globalAlpha = !used || kind === 1 || kind === 2 ? 1 : 0.55;
        context.fillRect(x, 6, CELL.width - 2, CELL.height);
        context.globalAlpha = 1;
        if (!used) return;
        context.fillStyle = colours.panel;
        if (kind === 3 || outside) context.fillStyle = colours.ink;
        context.font = "600 12px system-ui, sans-serif";
        context.fillText(String(number), middle, 15);
        context.font = "12px system-ui, sans-serif";
        context.fillText(outside ? "x" : KIND_LETTERS[kind], middle, 31);
        if (conforms) return;
        context.fillStyle = colours.bad;
        context.fillRect(x, 8 + CELL.height, CELL.width - 2, 5);
    }
}

/* All drawings of a link, one below the other. */
class LinkDrawing {
    constructor() {
        this.slots = new SlotsRow();
        this.way = new WayDrawing();
        this.charts = [new RatesChart(), new MissingChart(), new QueueChart()];
        const figures = [this.slots, this.way, ...this.charts].map(({ figure }) => figure);
        this.element = element("div", { class: "drawings" }, figures);
    }

    draw(network, samples) {
        const colours = coloursOf(this.element), to = Math.max(network.now, samples.span), from = to - samples.span;
        const gutter = BAR * (1 + network.connections.findLastIndex((it) => it.open)) + 6;
        this.slots.draw(colours, samples);
        this.way.draw(colours, network);
        for (const chart of this.charts) {
            chart.gutter = gutter;
            chart.draw(colours, samples, network, from, to);
        }
    }
}
