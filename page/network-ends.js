/* The ends of a link (network.js): a connection, and a station with a table of the engine. */

const GREEDY = 1, BURSTS = 2, TRICKLE = 3; /* a connection's data; 0 is none */

/* A connection: its values, and what the network keeps of it beside the engine. */
class Connection {
    constructor(engine, number, values) {
        this.engine = engine;
        this.vpi = number - 1;
        this.values = { ...values };
        this.open = false;
        this.sent = [0, 0, 0, 0]; /* by kind: ABR_SENT_... */
        this.opening = this.arrived = this.delivered = this.outside = this.opened = this.acr = this.turn = 0;
        this.lastData = -Infinity;
        this.policer = new Policer();
        this.setContract();
    }

    /* What follows from the contract; the rates are those of the codes. */
    setContract() {
        const { engine, values } = this, code = (cells) => codeOf(engine, cells);
        this.params = { ...engine.abr_house(code(values.pcr), code(values.mcr), code(values.icr)) };
        for (const name of ["n", "r", "d", "c", "tbe", "frtt", "adtf", "trm"]) this.params[name] = values[name];
        this.pcr = rateOf(engine, this.params.pcr);
        this.mcr = rateOf(engine, this.params.mcr);
        this.vci = values.members === 0 ? FIRST_VCI : engine.ABR_PATH_VCI;
        this.places = Math.max(1, values.members);
        this.waiting = new Array(this.places).fill(0);
    }

    /* Begins an opening: nothing is counted yet, and its cells are told from those of the opening before. */
    renew() {
        this.opening++;
        this.cells = this.waiting.map((_, place) => dataCell(this, FIRST_VCI + place));
        this.sent.fill(0);
        this.arrived = this.delivered = this.outside = this.policer.dropped = 0;
    }

    /* Counts a cell that has reached the far end. */
    reached({ data, opening }) {
        if (opening !== this.opening) return;
        this.arrived++;
        this.delivered += data ? 1 : 0;
    }

    get cellsSent() { return this.sent[1] + this.sent[2] + this.sent[3]; }

    /* The cells n that the minimum promises up to a slot where data always waits: the least with
     * slot <= opened + (n + 1) * gap + lag (section 20 of the manual). */
    promised(slot, lag) {
        if (this.mcr === 0 || !this.open) return 0;
        return Math.max(0, Math.ceil((slot - this.opened - lag) / increment(this.mcr)) - 1);
    }

    /* What it asks of the port above its minimum, in units. */
    get demand() {
        const asked = this.values.data === TRICKLE ? Math.floor(this.values.rate * 17 / 16) * RATE_ONE : this.pcr;
        return Math.max(0, Math.min(asked, this.pcr) - this.mcr);
    }
}

/* An end of the link: a table, and the time that its last slot was passed. */
class Station {
    constructor(engine, table) {
        this.engine = engine;
        this.table = table;
        this.passed = this.idle = 0;
        this.inLeaf = [];
        this.cell = new Uint8Array(engine.ABR_CELL_OCTETS);
        engine.clearTable(table);
    }

    open(connection, params) {
        const { engine, table } = this, { vpi, vci, values } = connection, time = BigInt(this.passed);
        const path = values.members > 0;
        const opened = path ? engine.abr_open_path(table, vpi, time, params)
            : engine.abr_open(table, vpi, vci, time, params);
        accepted(engine, opened.refusal);
        this.inLeaf[opened.leaf] = connection;
        for (let place = 0; path && place < connection.places; place++) {
            accepted(engine, engine.abr_add_member(table, vpi, FIRST_VCI + place).refusal);
        }
    }

    close(connection) {
        accepted(this.engine, this.engine.abr_close(this.table, connection.vpi, connection.vci).refusal);
    }

    /* A cell of a connection that was closed meanwhile is refused, and dropped. */
    receive(cell) {
        const received = this.engine.abr_receive(this.table, cell.octets);
        if (received.refusal === this.engine.ABR_REFUSED_NOT_OPEN) return null;
        accepted(this.engine, received.refusal);
        return received;
    }

    slot(now, lag) {
        const time = this.engine.abr_slot_time(this.table, BigInt(now), BigInt(lag));
        const sent = this.engine.abr_slot(this.table, time, this.cell);
        accepted(this.engine, sent.refusal);
        this.passed = Number(time);
        this.idle += sent.kind === this.engine.ABR_SENT_IDLE ? 1 : 0;
        return sent;
    }

    /* The RM cell that the last call wrote; opening 0 if it does not count among those of its connection. */
    written(connection, opening = 0) {
        return { octets: this.cell.slice(), connection, data: false, opening };
    }
}
