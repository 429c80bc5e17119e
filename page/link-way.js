/* The cells under way: from the near end to the port and the far end above, and back below. */

const WAY = { height: 76, top: 22, bottom: 48, place: 62, most: 300 };

class WayDrawing extends Chart {
    constructor() {
        super("Cells under way, to the far end above and back below: data small, ringed if marked, RM cells large",
            WAY.height);
    }

    draw(colours, network) {
        this.context = this.clear();
        const port = Math.round((this.width - WAY.place) / 2), far = this.width - WAY.place;
        this.cells(colours, network, network.toPort, WAY.place, port, WAY.top);
        this.cells(colours, network, network.toFar, port + WAY.place, far, WAY.top);
        this.cells(colours, network, network.backToPort, far, port + WAY.place, WAY.bottom);
        this.cells(colours, network, network.toNear, port, WAY.place, WAY.bottom);
        this.box(colours, 0, "near end");
        this.box(colours, port, "port", network.port.queue.count);
        this.box(colours, far, "far end");
    }

    /* A place on the way; in the port the number of cells that are queued. */
    box(colours, x, name, queued = null) {
        const { context } = this, y = WAY.top - 12, tall = WAY.bottom + 12 - y, middle = x + WAY.place / 2;
        context.fillStyle = colours.panel;
        context.fillRect(x, y, WAY.place, tall);
        context.strokeStyle = colours.muted;
        context.lineWidth = 1;
        context.strokeRect(x + 0.5, y + 0.5, WAY.place - 1, tall - 1);
        context.fillStyle = colours.ink;
        context.textAlign = "center";
        context.textBaseline = "middle";
        context.fillText(name, middle, queued === null ? y + tall / 2 : y + 16);
        if (queued === null) return;
        context.font = "600 14px system-ui, sans-serif";
        context.fillText(queued.toLocaleString("en"), middle, y + 35);
        context.font = "12px system-ui, sans-serif";
    }

    /* The cells of a leg, each where it is now; of very many not all. */
    cells(colours, network, leg, from, to, y) {
        const { context } = this, takes = Math.max(1, network.leg), every = Math.ceil(leg.count / WAY.most);
        context.strokeStyle = colours.grid;
        context.lineWidth = 1;
        context.beginPath();
        context.moveTo(from, y);
        context.lineTo(to, y);
        context.stroke();
        for (let place = 0; place < leg.count; place += every) {
            const at = (leg.first + place) % PLACES, left = (leg.times[at] - network.now) / takes;
            this.cell(colours, leg.cells[at], to + (from - to) * Math.min(1, Math.max(0, left)), y);
        }
    }

    cell(colours, { connection, data, efci }, x, y) {
        const { context } = this;
        context.fillStyle = colours.connections[connection.vpi];
        context.beginPath();
        context.arc(x, y, data ? 2.5 : 5, 0, 2 * Math.PI);
        context.fill();
        if (efci !== 1) return;
        context.strokeStyle = colours.bad;
        context.lineWidth = 1.5;
        context.beginPath();
        context.arc(x, y, 5, 0, 2 * Math.PI);
        context.stroke();
    }
}
