/*
 * A trace judged beside the page, in a worker with a module of its own, so that the page answers while it lasts.
 *
 *   new Judge(source, progress)    source is a text or an ArrayBuffer; progress is called with { what, done }, done
 *                                  from 0 to 1, or null where nobody knows
 *   judge.judged                   the promise of what is said below
 *   judge.cells(first)             behind it: the promise of the cells to show from one on, or of the last ones
 *   judge.stop()                   ends it without an answer
 *
 * What is promised: verdict, as abr_judge answers it; isText, whether the trace was a text; octet, number and line,
 * where a refusal is seen, counted from 1; length in octets; count and time of all cells that can be read; head with
 * nrm and trmTime; cells, those to show; around, octets to show and where they begin. A cell to show has gap and due
 * (Asked), and k, since and forwardNumber, from the last forward cell.
 */

/* The most cells that are shown, and those up to the one that breaks a rule; what is read before them to see the last
 * forward cell, at most Nrm ago. */
const SHOWN = 64, SHOWN_TO = 48, READ_BEFORE = 256;
const OCTETS_AROUND = 16;

/* The octet at which a trace is refused: the last of its shortest beginning that is refused so; one behind the last if
 * it is refused because it ends. */
function refusedOctet(engine, octets, refusal, progress) {
    if (refusal === engine.ABR_REFUSED_TRACE_END) return octets.length + 1;
    const seen = (length) => engine.abr_judge(octets.subarray(0, length)).refusal === refusal;
    const steps = Math.ceil(Math.log2(octets.length + 1));
    let low = 0, high = octets.length;
    for (let step = 0; high - low > 1; step++) {
        progress("finding the refused octet", Math.min(1, step / steps));
        const middle = Math.floor((low + high) / 2);
        if (seen(middle)) high = middle;
        else low = middle;
    }
    return high;
}

/* The cells of a trace that can be read, so many, of which one may break a rule. */
class TraceCells {
    constructor(engine, octets, all, broken) {
        const reader = new TraceReader(octets), asked = new Asked(engine), { n, trm } = reader.head;
        Object.assign(this, { engine, octets, all, broken, asked });
        this.head = { n, trm, nrm: asked.nrm(n), trmTime: asked.trm(trm) };
        reader.pass(all);
        this.time = reader.time;
    }

    /* Those from one on, as many as are shown, or the last ones. */
    from(first) {
        const begin = Math.max(1, Math.min(first, this.all - SHOWN + 1)), end = Math.min(this.all, begin + SHOWN - 1);
        const reader = new TraceReader(this.octets), cells = [];
        reader.pass(Math.max(0, begin - 1 - READ_BEFORE));
        while (reader.cells < end) cells.push(reader.cell());
        explainCells(this.asked, this.head, cells, this.broken, this.engine);
        return cells.filter((cell) => cell.number >= begin);
    }
}

/* Says of each cell what the rules ask of it; behind a broken one they ask nothing that is known. */
function explainCells(asked, head, cells, broken, engine) {
    let forward = null, k = 0;
    for (const cell of cells) {
        cell.gap = asked.gap(cell.rate);
        cell.k = k;
        cell.since = forward === null ? null : cell.time - forward.time;
        cell.forwardNumber = forward === null ? null : forward.number;
        cell.judged = broken === 0 || cell.number <= broken;
        cell.due = null;
        if (cell.number === 1) cell.due = "first";
        else if (cell.judged && forward !== null) cell.due = asked.due([head.n, head.trm], k, cell.since);
        if (cell.kind === engine.ABR_SENT_FORWARD) [forward, k] = [cell, 0];
        else if (forward !== null) k += 1;
    }
}

/* What can be read of a trace: all of it, or what stands before the refused octet. First shown are the cells around the
 * one that breaks a rule, the last ones before a refusal, or the first ones. Answers the cells, or null. */
function readCells(engine, octets, verdict, judged) {
    const readable = judged.octet === null ? octets : octets.subarray(0, judged.octet - 1);
    const numbers = countNumbers(readable), broken = Number(verdict.cell);
    judged.number = judged.octet === null ? null : numbers + 1;
    if (numbers < HEAD_NUMBERS) return null;
    const count = Math.floor((numbers - HEAD_NUMBERS) / CELL_NUMBERS);
    const trace = new TraceCells(engine, readable, count, broken), { head, time } = trace;
    const cells = trace.from(judged.octet === null ? broken - SHOWN_TO + 1 : count);
    Object.assign(judged, { head, cells, count, time });
    return trace;
}

/* All that is said of a trace, given as octets or as a text, and its cells. */
function judgeSource(engine, source, progress) {
    const isText = typeof source === "string";
    if (isText) progress("reading the numbers", null);
    const octets = isText ? parseTrace(source) : source;
    progress("judging", null);
    const verdict = engine.abr_judge(octets), length = octets.length;
    const judged = { verdict, isText, length, octet: null, number: null, line: null, cells: [], count: 0, time: 0n };
    if (verdict.refusal !== engine.ABR_OK) {
        judged.octet = refusedOctet(engine, octets, verdict.refusal, progress);
        const begin = Math.max(0, judged.octet - 1 - OCTETS_AROUND);
        judged.around = { begin, octets: octets.slice(begin, judged.octet + OCTETS_AROUND) };
    }
    progress("reading the cells", null);
    const trace = readCells(engine, octets, verdict, judged);
    if (isText && judged.number !== null) judged.line = lineOfNumber(source, judged.number);
    return { judged, trace };
}

/* What the worker runs: the first message is a trace, each later one the first of the cells to show. */
async function serveJudge() {
    const engine = await loadEngine();
    const judge = (data) => {
        const octets = typeof data === "string" ? null : new Uint8Array(data);
        const source = octets && isText(octets) ? new TextDecoder().decode(octets) : octets ?? data;
        const { judged, trace } = judgeSource(engine, source, (what, done) => postMessage({ what, done }));
        onmessage = ({ data: first }) => postMessage({ cells: trace.from(first) });
        return { judged };
    };
    onmessage = ({ data }) => {
        try {
            postMessage(judge(data));
        } catch ({ message, noTrace }) {
            postMessage({ error: { message, noTrace } });
        }
    };
    postMessage({ ready: true });
}

class Judge {
    constructor(source, progress) {
        const scripts = [...document.querySelectorAll("script.worker")].map((script) => script.textContent);
        const address = URL.createObjectURL(new Blob([...scripts, "serveJudge();"], { type: "text/javascript" }));
        this.worker = new Worker(address);
        this.asked = [];
        this.judged = new Promise((resolve, reject) => {
            this.worker.onerror = (event) => reject(new Error(event.message));
            this.worker.onmessage = ({ data }) => {
                if (data.ready) this.worker.postMessage(source, typeof source === "string" ? [] : [source]);
                else if (data.what) progress(data);
                else if (data.error) reject(data.error);
                else if (data.judged) resolve(data.judged);
                else this.asked.shift()(data.cells);
            };
        }).finally(() => URL.revokeObjectURL(address));
    }

    cells(first) {
        this.worker.postMessage(first);
        return new Promise((resolve) => this.asked.push(resolve));
    }

    stop() {
        this.worker.terminate();
    }
}
