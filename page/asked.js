/*
 * What the rules ask of a cell, asked of abr_judge: short traces are judged, and the one at which the verdict changes
 * is the answer. So the page draws gaps and due forward cells without a rule of its own.
 */

/* The least number, above none and at most the greatest, for which something holds that holds of all greater ones; null
 * if it never does. */
function least(holds, greatest) {
    let high = 1n;
    while (high < greatest && !holds(high)) high *= 2n;
    if (high >= greatest && !holds(greatest)) return null;
    let low = high / 2n;
    if (high > greatest) high = greatest;
    while (high - low > 1n) {
        const middle = (low + high) / 2n;
        if (holds(middle)) high = middle;
        else low = middle;
    }
    return high;
}

/* n and the Trm number with which no forward cell is soon due. */
const PATIENT = [8, 7];

class Asked {
    constructor(engine) {
        this.engine = engine;
        this.gaps = new Map();
        this.closest = this.gap(engine.ABR_RATE_MAX);
    }

    rule(numbers) {
        return this.engine.abr_judge(traceOf(numbers)).rule;
    }

    /* The gap of a rate: the least time at which a second cell breaks no rule; null if there is none. */
    gap(rate) {
        const { ABR_SENT_FORWARD, ABR_SENT_DATA, ABR_RULE_NONE, ABR_TIME_MAX } = this.engine;
        if (!this.gaps.has(rate)) {
            const first = [...PATIENT, 0, ABR_SENT_FORWARD, rate];
            const kept = (time) => this.rule([...first, time, ABR_SENT_DATA, rate]) === ABR_RULE_NONE;
            this.gaps.set(rate, least(kept, ABR_TIME_MAX));
        }
        return this.gaps.get(rate);
    }

    /* A forward cell and so many data cells, as close as cells can be. */
    run(head, cells) {
        const { ABR_SENT_FORWARD, ABR_SENT_DATA, ABR_RATE_MAX } = this.engine;
        const numbers = [...head, 0, ABR_SENT_FORWARD, ABR_RATE_MAX];
        for (let k = 0; k < cells; k++) numbers.push(this.closest, ABR_SENT_DATA, ABR_RATE_MAX);
        return numbers;
    }

    /* Nrm of an n: data alone behind a forward cell breaks the rule where the next forward cell is due. */
    nrm(n) {
        return Number(this.engine.abr_judge(traceOf(this.run([n, PATIENT[1]], 256))).cell) - 1;
    }

    /* Trm of a Trm number, in nanoseconds: from when on a third cell must be forward. */
    trm(trm) {
        const due = (since) => this.due([PATIENT[0], trm], 2, since) !== null;
        return least(due, this.engine.ABR_TIME_MAX);
    }

    /* Why a forward cell is due behind so many cells and so long after the last forward one: "count" and "time", or
     * null if none is. */
    due(head, k, since) {
        const { ABR_SENT_DATA, ABR_RATE_MAX, ABR_RULE_FORWARD } = this.engine;
        const before = this.run(head, k), passed = BigInt(k) * this.closest;
        const broken = (wait) => this.rule([...before, wait, ABR_SENT_DATA, ABR_RATE_MAX]) === ABR_RULE_FORWARD;
        if (broken(this.closest)) return "count";
        const wait = since - passed;
        return wait > this.closest && broken(wait) ? "time" : null;
    }
}
