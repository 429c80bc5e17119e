/* Cells: their octets, cells under way, and the policer that sees them. */

const PLACES = 32768, FIRST_VCI = 32;

/* Octet 5 of a header: the remainder of the four before it by x^8 + x^2 + x + 1, exclusive-or 0x55. */
function headerCheck(octets) {
    let remainder = 0;
    for (let place = 0; place < 4; place++) {
        remainder ^= octets[place];
        for (let bit = 0; bit < 8; bit++) remainder = (remainder << 1 ^ (remainder & 0x80 ? 0x107 : 0)) & 0xff;
    }
    return remainder ^ 0x55;
}

/* A data cell of a connection, and in marked the same with the congestion mark. */
function dataCell(connection, vci) {
    const { vpi } = connection;
    const withMark = (efci) => {
        const octets = new Uint8Array(53);
        octets.set([vpi >> 4, (vpi << 4 | vci >> 12) & 0xff, vci >> 4 & 0xff, (vci << 4 | efci << 2) & 0xff]);
        octets[4] = headerCheck(octets);
        return { octets, connection, data: true, efci, opening: connection.opening };
    };
    return { ...withMark(0), marked: withMark(1) };
}

/* Cells in the order in which they set out, each with a time. */
class Cells {
    constructor() {
        this.times = new Float64Array(PLACES);
        this.cells = new Array(PLACES).fill(null);
        this.first = this.count = this.latest = 0;
    }

    /* None overtakes another when the round trip becomes shorter. */
    put(time, cell) {
        if (this.count === PLACES) throw new Error("a line is full");
        const place = (this.first + this.count++) % PLACES;
        this.latest = this.times[place] = Math.max(this.latest, time);
        this.cells[place] = cell;
    }

    get time() { return this.times[this.first]; }

    due(now) { return this.count > 0 && this.time <= now; }

    take() {
        const cell = this.cells[this.first];
        this.first = (this.first + 1) % PLACES;
        this.count--;
        return cell;
    }
}

/* What a policer sees of a connection: the dynamic GCRA of ITU-T I.371, with the rate in force before each cell. A name
 * that is opened anew is to it the same. */
class Policer {
    constructor() {
        this.scheduled = null;
        this.dropped = 0;
    }

    /* Whether a cell conforms. One that does not changes nothing. */
    arrives(now, gap, tolerance) {
        const expected = this.scheduled === null ? now : this.scheduled + gap;
        if (now + tolerance < expected) {
            this.dropped++;
            return false;
        }
        this.scheduled = Math.max(now, expected);
        return true;
    }
}
