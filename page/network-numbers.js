/* Times in nanoseconds, rates, and chance: what the network and the switch count with. */

const SECOND = 1e9;
const RATE_ONE = HEADER.constants.ABR_RATE_ONE; /* units of a cell per second */

/* Ends a run: the network makes no call that should be refused. */
function accepted(engine, refusal) {
    if (refusal !== 0) throw new Error(engine.refusalText(refusal));
}

/* The code of the greatest rate not above so many cells per second. */
function codeOf(engine, cells) {
    const coded = engine.abr_code(BigInt(cells * RATE_ONE));
    accepted(engine, coded.refusal);
    return coded.code;
}

/* The rate of a code in units. */
function rateOf(engine, code) {
    const rated = engine.abr_rate(code);
    accepted(engine, rated.refusal);
    return Number(rated.rate);
}

/* Nanoseconds from one cell to the next at a rate in units. */
function increment(rate) {
    return Math.ceil(RATE_ONE * SECOND / rate);
}

/* The next number of a generator (G. Marsaglia's xorshift of 32 bits). */
function xorshift32(number) {
    let next = number;
    next ^= next << 13;
    next ^= next >>> 17;
    next ^= next << 5;
    return next >>> 0;
}
