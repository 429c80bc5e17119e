/*
 * What is wrong with a cell, and what would be right, asked of abr_read: it is given the cell with every value of what
 * it refuses, and takes the right one. Each fault is put right in a copy, so that the next one is seen too.
 */

/* Octets are counted from 1, as in the manual. */
const HEADER_CHECK = 5, PROTOCOL = 6, RATES = { ER: 8, CCR: 10, MCR: 12 }, CRC = [52, 53], RESERVED_BIT = 0x80;

/* The octets with some of them others. */
function withOctets(octets, changes) {
    const changed = Uint8Array.from(octets);
    for (const [place, value] of Object.entries(changes)) changed[place - 1] = value;
    return changed;
}

/* The first of so many values with which the library no longer refuses so; put makes the cell with a value. */
function rightValue(engine, refusal, values, put) {
    for (let value = 0; value < values; value++) {
        if (engine.abr_read(put(value)).refusal !== refusal) return put(value);
    }
    return null;
}

function rightHeaderCheck(engine, octets) {
    const put = (value) => withOctets(octets, { [HEADER_CHECK]: value });
    return rightValue(engine, engine.ABR_REFUSED_HEADER_CHECK, 256, put);
}

/* The CRC-10 has the low ten bits of the last two octets; the others stay. */
function rightCrc(engine, octets) {
    const [high, low] = CRC, kept = octets[high - 1] & 0xfc;
    const put = (value) => withOctets(octets, { [high]: kept | (value >> 8), [low]: value & 0xff });
    return rightValue(engine, engine.ABR_REFUSED_CRC, 1024, put);
}

/* The octets in hexadecimal. */
function octetsText(octets) {
    return [...octets].map(hex).join(" ");
}

/* A fault: the refusal, a name for the octets it is about, what they are and what they should be, and the cell with it
 * put right. */
function fault(refusal, name, places, octets, right) {
    const text = (cell) => octetsText(places.map((place) => cell[place - 1]));
    return { refusal, name, places, is: text(octets), should: text(right), right };
}

/* The fields of an RM cell, all of them 0. */
function noFields() {
    return Object.fromEntries(HEADER.structs.abr_rm.map(([field]) => [field, 0]));
}

/* The protocol is that of a cell which the library writes. */
function protocolFault(engine, octets) {
    const written = new Uint8Array(engine.ABR_CELL_OCTETS);
    engine.abr_write_rm(noFields(), written);
    const right = rightCrc(engine, withOctets(octets, { [PROTOCOL]: written[PROTOCOL - 1] }));
    return fault(engine.ABR_REFUSED_PROTOCOL, "it", [PROTOCOL], octets, right);
}

/* The first rate with its reserved bit set. */
function reservedFault(engine, octets) {
    const [name, place] = Object.entries(RATES).find(([, high]) => octets[high - 1] & RESERVED_BIT);
    const right = rightCrc(engine, withOctets(octets, { [place]: octets[place - 1] & ~RESERVED_BIT }));
    return fault(engine.ABR_REFUSED_RESERVED_BIT, name, [place, place + 1], octets, right);
}

/* The fault for which a cell is refused; right is null if no change of a check helps. */
function faultOf(engine, refusal, octets) {
    switch (refusal) {
    case engine.ABR_REFUSED_HEADER_CHECK:
        return fault(refusal, "the header check", [HEADER_CHECK], octets, rightHeaderCheck(engine, octets));
    case engine.ABR_REFUSED_CRC: return fault(refusal, "it", CRC, octets, rightCrc(engine, octets));
    case engine.ABR_REFUSED_PROTOCOL: return protocolFault(engine, octets);
    case engine.ABR_REFUSED_RESERVED_BIT: return reservedFault(engine, octets);
    default: return { refusal, name: "it", places: [4], is: null, should: null, right: null };
    }
}

/* All faults of a cell in the order of the refusals, and what the library reads once they are put right; read is null
 * if one can't be. */
function checkCell(engine, octets) {
    const faults = [];
    for (let cell = octets; cell !== null; cell = faults[faults.length - 1].right) {
        const read = engine.abr_read(cell);
        if (read.refusal === engine.ABR_OK) return { faults, read };
        faults.push(faultOf(engine, read.refusal, cell));
    }
    return { faults, read: null };
}
