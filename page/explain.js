/*
 * A verdict in a sentence, from what a Judge says, in the words of abr-judge. For a text a place is a number and its
 * line, for other traces an octet.
 */

function thousands(number) {
    return number.toLocaleString("en");
}

/* So many of something in words. */
function counted(count, name) {
    return `${thousands(count)} ${name}${count === 1 ? "" : "s"}`;
}

/* A rate in cells per second. */
function cellsPerSecond(engine, rate) {
    return Number(rate) / engine.ABR_RATE_ONE;
}

function passesSentence({ count, time }) {
    if (count === 0) return "it has no cell";
    if (count === 1) return "its one cell is forward";
    return `${thousands(count)} cells in ${thousands(time)} ns follow the rules`;
}

function earlySentence(engine, cell) {
    const before = thousands(cell.number - 1), passed = thousands(cell.passed);
    if (cell.gap === null) return `at rate 0 no cell may follow, and it comes ${passed} ns after cell ${before}`;
    const rate = `rate ${thousands(cell.rate)} (${cellsPerSecond(engine, cell.rate).toFixed(3)} cells/s)`;
    const must = `it must come ${thousands(cell.gap)} ns or more after cell ${before}`;
    return `at ${rate} ${must}, and it comes ${passed} ns after it`;
}

function forwardSentence(head, cell) {
    const cells = counted(cell.k, "cell"), trm = thousands(head.trmTime);
    const last = `the last forward cell, cell ${thousands(cell.forwardNumber)}`;
    const gone = `${cells} and ${thousands(cell.since)} ns after ${last}`;
    const why = {
        count: `a forward cell is due, ${gone} (Nrm - 1 is ${head.nrm - 1})`,
        time: `a forward cell is due, ${gone} (two cells and Trm, ${trm} ns)`,
    }[cell.due] ?? `no forward cell is due, ${gone} (Nrm is ${head.nrm}, Trm ${trm} ns)`;
    return `${why}, and it is a ${KINDS[cell.kind]} cell`;
}

function brokenSentence(engine, { verdict, head, cells }) {
    const cell = cells.find(({ number }) => BigInt(number) === verdict.cell);
    switch (verdict.rule) {
    case engine.ABR_RULE_FIRST: return `the first cell must be a forward cell, and it is a ${KINDS[cell.kind]} cell`;
    case engine.ABR_RULE_GAP: return earlySentence(engine, cell);
    default: return forwardSentence(head, cell);
    }
}

const NO_TRACE = "This does not look like a trace.";

/* Whether a trace looks like something else: it is refused within its first cell, and not since it ends there. */
function looksLikeNone(engine, { verdict, count }) {
    return ![engine.ABR_OK, engine.ABR_REFUSED_TRACE_END].includes(verdict.refusal) && count === 0;
}

/* Where a trace is refused: of a text the number and its line, else the octet. */
function refusedPlace({ isText, octet, number, line }) {
    return isText ? `number ${thousands(number)}, line ${thousands(line)}` : `octet ${thousands(octet)}`;
}

function refusedSentence(engine, judged) {
    const field = fieldOf(judged.number), text = engine.refusalText(judged.verdict.refusal);
    if (judged.verdict.refusal === engine.ABR_REFUSED_TRACE_END) return `${text}; ${field} is missing or not whole`;
    return `${text}; it is seen at ${refusedPlace(judged)}, in ${field}`;
}

/* The sentence, with its first words apart: what the trace does. */
function sentenceOf(engine, judged) {
    const { refusal, rule, cell } = judged.verdict;
    if (refusal !== engine.ABR_OK) return { does: `is refused with ${refusal}`, why: refusedSentence(engine, judged) };
    if (rule === engine.ABR_RULE_NONE) return { does: "passes", why: passesSentence(judged) };
    return { does: `breaks rule ${rule} at cell ${thousands(cell)}`, why: brokenSentence(engine, judged) };
}
