/* The port of a network (network.js). */

const ACTIVE = 20e6; /* a connection whose data came within this time has its share */

/* The port: the queue towards the far end, and the rates that it writes into cells on their way back. */
class Port {
    constructor(engine, values, connections) {
        this.engine = engine;
        this.values = values;
        this.connections = connections;
        this.queue = new Cells();
        this.free = this.full = this.marked = this.lost = 0;
        this.random = values.seed;
        this.largest = Number(engine.ABR_RATE_MAX);
    }

    /* The minimums of all open connections, in units. */
    get minimums() {
        return this.connections.reduce((sum, connection) => sum + (connection.open ? connection.mcr : 0), 0);
    }

    /* Whether the network loses an RM cell. */
    loses() {
        if (this.values.loss === 0) return false;
        this.random = xorshift32(this.random);
        const lost = this.random % 1000 < this.values.loss;
        this.lost += lost ? 1 : 0;
        return lost;
    }

    /* A cell from the near end joins the queue, which it may not reach. */
    queued(time, cell) {
        if (!cell.data && this.loses()) return;
        const { buffer, efci } = this.values, { connection } = cell;
        if (cell.data) connection.lastData = time;
        if (this.queue.count >= buffer) {
            this.full++;
            return;
        }
        const marks = cell.data && efci > 0 && this.queue.count >= efci;
        this.marked += marks ? 1 : 0;
        this.queue.put(time, marks ? cell.marked : cell);
    }

    /* Sends what it can by a time: each cell takes its time from when the one before has gone. */
    serve(now, onward, leg) {
        const service = Math.floor(SECOND / this.values.port);
        while (this.queue.count > 0) {
            const gone = Math.max(this.free, this.queue.time) + service;
            if (gone > now) return;
            this.free = gone;
            onward.put(gone + leg, this.queue.take());
        }
    }

    /* The share above the minimums, in units; the largest rate if there is no limit. */
    share(now) {
        const open = this.connections.filter((connection) => connection.open);
        const capacity = Math.max(0, Math.floor(this.values.port * this.values.share / 100) * RATE_ONE - this.minimums);
        const active = open.filter((connection) => now - connection.lastData < ACTIVE);
        const found = this.engine.abr_fair_share(BigInt(capacity), active.map(({ demand }) => BigInt(demand)));
        accepted(this.engine, found.refusal);
        return Number(found.rate);
    }

    /* What a connection may have at most: the largest rate, which limits nothing, if the port writes no rates. */
    limit(now, connection) {
        if (connection.values.zero === 1) return 0;
        return this.values.share === 0 ? this.largest : Math.min(this.largest, connection.mcr + this.share(now));
    }

    /* A cell from the far end passes. */
    passes(now, cell) {
        if (this.loses()) return false;
        accepted(this.engine, this.engine.abr_limit(BigInt(this.limit(now, cell.connection)), cell.octets));
        return true;
    }
}
