/*
 * The switch of M. Bernardo, "Using EMPA for the Performance Evaluation of an ATM Switch" (sections 3.1 to 3.3): two
 * inputs, two outputs, a buffer at each output. In every slot each input has a data cell with a probability, the
 * traffic; each output sends a cell if it has one, and loses those for which its buffer has no room.
 *
 * An input's connection lasts a million slots on average and goes to either output, so that nearly always the switch is
 * in one constellation: both inputs to one output, or each to its own. Each is run, and counts half. Three switches:
 *   without ABR        both inputs send a cell in the slot in which they have it;
 *   both services      each connection has ABR or has not, with equal chance, as in the paper's second switch;
 *   ABR alone          both inputs are sources of this library, on links of a cell a slot.
 *
 * A source has the house set with a peak of a cell a slot, which is its initial rate, and a minimum of a cell every
 * three slots, the paper's high and low speed. Cells that it may not send yet wait at the source. Its lag is a slot.
 * At the time of a slot, in this order:
 *   1. each input draws (xorshift32: 13, 17, 5; modulo 100 below the traffic: it has a data cell), and sends or not;
 *   2. each output takes the cells, in even slots that of the first input first. The first makes it send the first cell
 *      in its buffer, which may be this one; another joins the buffer, or is lost if it is full. A cell of a source
 *      that finds the upper threshold reached makes the switch send that source a backward cell, with BN and CI.
 *      Without a cell it sends one from the buffer, or waits. What is sent reaches its destination in the slot;
 *   3. the destination at the output has a slot. A turned cell on its way back is given CI if the upper threshold is
 *      reached, NI if the lower one is, and reaches its source in the slot.
 * The slots before WARM are not counted: what is counted is the steady state.
 */

const SWITCH_SLOT = 1000000, WARM = 2000, FIRST = 32;
const SWITCH_SEED = 12345;

/* One constellation of the switch, in one of its services: which inputs have ABR. */
class SwitchRun {
    constructor(engine, tables, { capacity, lower, upper, traffic, same, services }) {
        Object.assign(this, { engine, capacity, lower, upper, traffic, same, services });
        [this.sources, this.destinations] = [tables.slice(0, 2), tables.slice(2)];
        this.buffers = [[], []];
        this.slot = this.sent = this.lost = this.data = this.marks = 0;
        this.random = SWITCH_SEED;
        this.waiting = [0, 0]; /* at the sources */
        this.octets = new Uint8Array(engine.ABR_CELL_OCTETS);
        tables.forEach((table) => engine.clearTable(table));
        services.forEach((abr, input) => abr === 1 && this.open(input));
    }

    outputOf(input) { return this.same ? 0 : input; }

    open(input) {
        const { engine } = this, code = (cells) => codeOf(engine, cells);
        const params = engine.abr_house(code(1000), code(334), code(1000));
        const opened = [engine.abr_open(this.sources[input], 0, FIRST + input, 0n, params),
            engine.abr_open(this.destinations[this.outputOf(input)], 0, FIRST + input, 0n, { ...params, mcr: 0 })];
        opened.forEach(({ refusal }) => accepted(engine, refusal));
    }

    draw() {
        this.random = xorshift32(this.random);
        return this.random % 100 < this.traffic;
    }

    /* A slot of a table; its RM cell is in octets. */
    slotOf(table) {
        const { engine } = this, now = BigInt(this.slot * SWITCH_SLOT);
        const sent = engine.abr_slot(table, engine.abr_slot_time(table, now, BigInt(SWITCH_SLOT)), this.octets);
        accepted(engine, sent.refusal);
        return sent;
    }

    /* The cell of an input in this slot, or none: null for data, or the octets of an RM cell. */
    input(input) {
        const { engine } = this, has = this.draw();
        if (this.services[input] === 0) return has ? { input, rm: null } : null;
        if (has && this.waiting[input] < engine.ABR_WAITING_MAX) {
            accepted(engine, engine.abr_offer(this.sources[input], 0, FIRST + input, 1n).refusal);
            this.waiting[input]++;
        }
        const { kind } = this.slotOf(this.sources[input]);
        if (kind === engine.ABR_SENT_IDLE) return null;
        if (kind !== engine.ABR_SENT_DATA) return { input, rm: this.octets.slice() };
        this.waiting[input]--;
        return { input, rm: null };
    }

    /* An output sends the first cell of its buffer to its destination. */
    send(output) {
        const { engine } = this, cell = this.buffers[output].shift();
        if (this.slot >= WARM) this.sent++;
        if (this.slot >= WARM && cell.rm === null) this.data++;
        if (cell.rm !== null) accepted(engine, engine.abr_receive(this.destinations[output], cell.rm).refusal);
    }

    /* The switch tells a source to slow down. */
    reduce(input) {
        const { engine } = this, none = { ni: 0, ra: 0, ccr: 0, mcr: 0, ql: 0, sn: 0 };
        const rm = { vpi: 0, vci: FIRST + input, dir: 1, bn: 1, ci: 1, er: codeOf(engine, 1000), ...none };
        accepted(engine, engine.abr_write_rm(rm, this.octets));
        accepted(engine, engine.abr_receive(this.sources[input], this.octets).refusal);
        if (this.slot >= WARM) this.marks++;
    }

    output(output, cells) {
        const buffer = this.buffers[output];
        cells.forEach((cell, place) => {
            const reached = buffer.length >= this.upper;
            if (place === 0) {
                buffer.push(cell);
                this.send(output);
            } else if (buffer.length < this.capacity) {
                buffer.push(cell);
            } else if (this.slot >= WARM) {
                this.lost++;
            }
            if (reached && this.services[cell.input] === 1) this.reduce(cell.input);
        });
        if (cells.length === 0 && buffer.length > 0) this.send(output);
    }

    /* The slot of a destination, and the way back through the switch. */
    wayBack(output) {
        const { engine, octets } = this, held = this.buffers[output].length;
        const sent = this.slotOf(this.destinations[output]);
        if (sent.kind === engine.ABR_SENT_IDLE) return;
        const { refusal, rm } = engine.abr_read(octets);
        accepted(engine, refusal);
        if (rm.dir === 1 && held >= this.upper) rm.ci = 1;
        else if (rm.dir === 1 && held >= this.lower) rm.ni = 1;
        accepted(engine, engine.abr_write_rm(rm, octets));
        accepted(engine, engine.abr_receive(this.sources[sent.vci - FIRST], octets).refusal);
    }

    run(slots) {
        for (const end = this.slot + slots; this.slot < end; this.slot++) {
            const cells = [this.input(0), this.input(1)];
            if (this.slot % 2 === 1) cells.reverse();
            for (const output of [0, 1]) {
                this.output(output, cells.filter((cell) => cell !== null && this.outputOf(cell.input) === output));
                if (this.services[0] === 1) this.wayBack(output);
            }
        }
    }
}

const SWITCH_SERVICES = [[0, 0], [1, 0], [1, 1]], SWITCH_NAMES = ["without ABR", "both services", "ABR alone"];
const CAPACITIES = [5, 6, 7, 8], TRAFFICS = [50, 60, 70, 80, 90, 100];

/* All runs. Where each input has its own output nothing queues: one run, of capacity 0, stands for every capacity. */
function switchRuns({ lower, below }) {
    const runs = [];
    for (const services of SWITCH_SERVICES) {
        for (const traffic of TRAFFICS) {
            runs.push({ capacity: 0, lower, upper: 8, traffic, same: false, services });
            for (const capacity of CAPACITIES) {
                runs.push({ capacity, lower, upper: capacity - below, traffic, same: true, services });
            }
        }
    }
    return runs;
}

/* What one of the three switches sends and loses at one point, as cells in eight runs: four with both inputs to one
 * output and four with each to its own. With both services half of them have one source of each sort. */
function switchPoint(results, which, capacity, traffic) {
    const weights = [[4, 0, 0], [1, 2, 1], [0, 0, 4]][which];
    const sum = { sent: 0, lost: 0, data: 0 };
    for (const { run, counts } of results) {
        if (run.traffic !== traffic || (run.same && run.capacity !== capacity)) continue;
        const weight = weights[SWITCH_SERVICES.indexOf(run.services)];
        for (const name of Object.keys(sum)) sum[name] += weight * counts[name];
    }
    return sum;
}

/* What a switch sends or loses at a point: cells a slot (measure 0), or by the paper (1) of all that its outputs do,
 * which send or wait in each slot and may lose, the part that sends or loses, times the traffic. */
function switchMeasure(results, slots, measure, { which, name, capacity, traffic }) {
    const counts = switchPoint(results, which, capacity, traffic), all = 8 * (slots - WARM);
    if (measure === 0) return counts[name] / all;
    return 2 * traffic / 100 * counts[name] / (2 * all + counts.lost);
}
