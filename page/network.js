/*
 * A link, and the network behind it: the sources, the transmitter that gives them slots, a port of the network, the
 * destinations, and the way back. All numbers are whole: times in nanoseconds, rates in units of 1/512 cell per second.
 * The same settings give the same cells. Every rule of ABR is a call of the library.
 *
 *     near end --leg--> port, which queues --------leg--> far end
 *     near end <--leg-- port, which writes rates <-leg--- far end         a leg is a quarter of the round trip
 *
 * Slots come every floor(10^9 / line), from time 0 on, at both ends. At the time of a slot, in this order:
 *   1. values that change by then are set, in the order in which they are given;
 *   2. data is offered: greedy, two cells wait on every channel and member; bursts, so many cells on each every so many
 *      milliseconds; a trickle, a cell every floor(10^9 / rate), on a path's members in turn;
 *   3. cells from the near end reach the port: an RM cell may be lost; one that finds the buffer full is; a data cell
 *      that finds as many cells as the threshold is marked (EFCI). The port sends one every floor(10^9 / capacity);
 *   4. the far end receives what has arrived, and has its slot: it has no data, and turns RM cells round;
 *   5. cells from the far end reach the port: one may be lost, and its explicit rate is limited;
 *   6. the near end receives what has arrived, and has its slot. In an idle one the first connection whose rate is 0
 *      and that may ask for a rate sends an out-of-rate cell.
 *
 * An RM cell is lost when the next number of xorshift32 (13, 17, 5; from the seed), modulo 1,000, is below the loss; no
 * number is drawn while the loss is 0. The limit of a connection is 0 if it is given a rate of 0; else its minimum and
 * the fair share, above the minimums of all, of so many per cent of the port's capacity, among those whose data reached
 * the port in the last 20 ms: a trickle demands its rate and a sixteenth more for RM cells, any other its peak.
 *
 * Connection 1 is VPI 0 and VCI 32, connection 2 is VPI 1 and VCI 32, and so on; a path has its members from VCI 32 on.
 * The far end opens each without a minimum and with its peak as initial rate, so that no turned cell waits for long.
 * A cell that reaches the far end counts for the opening that sent it, and for none if it was sent out of rate.
 */

const WAITING = 2; /* cells that wait where data is greedy */
const CONTRACT = ["members", "pcr", "mcr", "icr", "n", "r", "d", "c", "tbe", "frtt", "adtf", "trm"];

class Network {
    constructor(engine, tables, settings) {
        this.engine = engine;
        this.values = { ...settings.network };
        this.connections = settings.connections.map((values, place) => new Connection(engine, place + 1, values));
        this.changes = settings.changes.slice();
        [this.near, this.far] = tables.map((table) => new Station(engine, table));
        this.port = new Port(engine, this.values, this.connections);
        [this.toPort, this.toFar, this.backToPort, this.toNear] = [new Cells(), new Cells(), new Cells(), new Cells()];
        this.now = this.at = 0; /* the times of the next slot and of the last */
        this.slots = 0;
        this.digest = 0x811c9dc5;
        this.last = null; /* what the last slot sent */
        this.setLevel();
        for (const connection of this.connections) if (connection.values.open === 1) this.open(connection);
    }

    get leg() { return Math.floor(this.values.trip * 1000 / 4); }
    get slotTime() { return Math.floor(SECOND / this.values.line); }
    get lag() { return this.values.lag * this.slotTime; }

    /* What the minimum of a connection promises by now, and the cells that are missing of it. */
    promised(connection) { return connection.promised(this.at, this.lag); }
    missing(connection) { return Math.max(0, this.promised(connection) - connection.cellsSent); }

    /* The same of cells that have arrived: what was promised a round trip ago should be there. */
    due(connection) { return connection.promised(this.at - this.values.trip * 1000, this.lag); }
    undelivered(connection) { return Math.max(0, this.due(connection) - connection.arrived); }

    open(connection) {
        const { engine, near, far } = this, { params } = connection;
        near.open(connection, params);
        far.open(connection, { ...params, mcr: 0, icr: params.pcr, tbe: engine.ABR_HOUSE_TBE, frtt: 0 });
        connection.open = true;
        connection.opened = near.passed;
        connection.next = this.now;
        connection.acr = Number(engine.abr_acr(near.table, connection.vpi, connection.vci).acr);
        connection.renew();
    }

    close(connection) {
        this.near.close(connection);
        this.far.close(connection);
        connection.open = false;
        connection.acr = 0;
        connection.waiting.fill(0);
    }

    setLevel() {
        accepted(this.engine, this.engine.abr_set_level(this.far.table, this.values.level));
    }

    /* Sets a value from now on: of the network (0) or a connection (1 to 8). A contract that changes is a new one. */
    set(number, name, value) {
        if (number === 0) {
            this.values[name] = value;
            if (name === "level") this.setLevel();
            if (name === "seed") this.port.random = value;
            return;
        }
        const connection = this.connections[number - 1];
        if (name === "er") {
            this.feedback(connection, value);
            return;
        }
        if (connection.values[name] === value) return;
        if (connection.open && (name === "open" || CONTRACT.includes(name))) this.close(connection);
        connection.values[name] = value;
        if (CONTRACT.includes(name)) connection.setContract();
        if (connection.values.open === 1 && !connection.open) this.open(connection);
        if (name === "every" || name === "rate" || name === "data") connection.next = this.now;
    }

    /* The network sends a source a backward cell with an explicit rate in cells per second. */
    feedback(connection, cells) {
        if (!connection.open) return;
        const { engine, near } = this, { vpi, vci } = connection;
        const er = codeOf(engine, cells);
        const rm = { vpi, vci, dir: 1, bn: 0, ci: 0, ni: 0, ra: 0, er, ccr: 0, mcr: 0, ql: 0, sn: 0 };
        accepted(engine, engine.abr_write_rm(rm, near.cell));
        this.arrivesNear(near.written(connection));
    }

    /* Offers data cells on a channel, or on a member of a path. */
    offer(connection, place, cells) {
        const { engine, near } = this, { vpi, values, waiting } = connection;
        const offered = Math.min(cells, engine.ABR_WAITING_MAX - waiting[place]);
        const call = values.members > 0 ? engine.abr_offer_member : engine.abr_offer;
        accepted(engine, call(near.table, vpi, FIRST_VCI + place, BigInt(offered)).refusal);
        waiting[place] += offered;
    }

    /* What the application of a connection has by now. */
    offers(connection) {
        const { values, waiting, places } = connection;
        if (values.data === GREEDY) {
            for (let place = 0; place < places; place++) {
                if (waiting[place] < WAITING) this.offer(connection, place, WAITING - waiting[place]);
            }
        }
        while (values.data === BURSTS && connection.next <= this.now) {
            for (let place = 0; place < places; place++) this.offer(connection, place, values.burst);
            connection.next += values.every * 1e6;
        }
        while (values.data === TRICKLE && connection.next <= this.now) {
            this.offer(connection, connection.turn++ % places, 1);
            connection.next += Math.floor(SECOND / values.rate);
        }
    }

    /* The port, towards the far end. */
    queueAndServe() {
        const { port, toPort, toFar, leg, now } = this;
        while (toPort.due(now)) {
            const time = toPort.time;
            port.serve(time, toFar, leg);
            port.queued(time, toPort.take());
        }
        port.serve(now, toFar, leg);
    }

    /* The far end: arrivals and a slot. */
    farSlot() {
        const { far, toFar, now } = this;
        while (toFar.due(now)) {
            const cell = toFar.take();
            if (far.receive(cell) !== null) cell.connection.reached(cell);
        }
        const sent = far.slot(now, this.lag);
        if (sent.kind === this.engine.ABR_SENT_IDLE) return;
        this.backToPort.put(now + this.leg, far.written(far.inLeaf[sent.leaf]));
    }

    /* The way back. */
    wayBack() {
        const { backToPort, toNear, port, leg, now } = this;
        while (backToPort.due(now)) {
            const time = backToPort.time, cell = backToPort.take();
            if (port.passes(time, cell)) toNear.put(time + leg, cell);
        }
        while (toNear.due(now)) this.arrivesNear(toNear.take());
    }

    arrivesNear(cell) {
        const received = this.near.receive(cell);
        if (received !== null) cell.connection.acr = Number(received.acr);
    }

    /* The near end's slot. */
    nearSlot() {
        const { engine, near, toPort, now, leg } = this;
        const sent = near.slot(now, this.lag);
        this.last = { kind: sent.kind, connection: null, conforms: true, outside: false };
        if (sent.kind === engine.ABR_SENT_IDLE) {
            this.askForARate();
            return sent;
        }
        const connection = near.inLeaf[sent.leaf], tolerance = this.values.cdvt * this.slotTime;
        connection.sent[sent.kind]++;
        connection.acr = Number(sent.acr);
        this.last.connection = connection;
        this.last.conforms = connection.policer.arrives(now, increment(Number(sent.acr_before)), tolerance);
        if (sent.kind === engine.ABR_SENT_DATA) {
            connection.waiting[sent.vci - FIRST_VCI]--;
            toPort.put(now + leg, connection.cells[sent.vci - FIRST_VCI]);
        } else {
            toPort.put(now + leg, near.written(connection, connection.opening));
        }
        return sent;
    }

    /* In an idle slot a connection whose rate is 0 asks for one, every 100 ms at most. */
    askForARate() {
        const { engine, near } = this, time = BigInt(near.passed);
        for (const connection of this.connections) {
            if (!connection.open || connection.acr > 0) continue;
            const refusal = engine.abr_out_of_rate(near.table, connection.vpi, connection.vci, time, near.cell);
            if (refusal === engine.ABR_REFUSED_OUT_OF_RATE_TOO_SOON) continue;
            accepted(engine, refusal);
            connection.outside++;
            Object.assign(this.last, { connection, outside: true });
            this.toPort.put(this.now + this.leg, near.written(connection));
            return;
        }
    }

    /* The changes that are due by now. */
    applyChanges() {
        while (this.changes.length > 0 && this.changes[0].time * 1000 <= this.now) {
            const { connection, name, value } = this.changes.shift();
            this.set(connection, name, value);
        }
    }

    /* Everything that happens at the time of one slot. */
    slot() {
        this.applyChanges();
        for (const connection of this.connections) if (connection.open) this.offers(connection);
        this.queueAndServe();
        this.farSlot();
        this.wayBack();
        this.account(this.nearSlot());
        this.slots++;
        this.at = this.now;
        this.now += this.slotTime;
    }

    /* FNV-1a over what every slot answered: two runs that agree in it agree in every slot. */
    account({ kind, vpi, vci, acr }) {
        for (const number of [kind, vpi, vci, Number(acr & 0xffffffffn)]) {
            this.digest = Math.imul(this.digest ^ number, 0x01000193) >>> 0;
        }
    }

    /* Every slot before a time in nanoseconds. */
    runTo(time) {
        while (this.now < time) this.slot();
    }

    /* What can be compared with another run: a line of whole numbers for the network, and one for each connection. */
    numbers() {
        const { port, near, far } = this, line = (...numbers) => numbers.join(" ");
        const of = (it) => line(it.acr, ...it.sent.slice(1), it.outside, it.delivered, this.promised(it),
            it.policer.dropped, it.waiting.reduce((sum, cells) => sum + cells, 0), it.arrived, this.due(it));
        return [line(this.now, this.slots, near.idle, far.idle, port.queue.count, port.full, port.marked, port.lost,
            port.share(this.now), this.digest), ...this.connections.filter((it) => it.open).map(of)];
    }
}
