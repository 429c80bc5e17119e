/* The cells of a trace as rows, and the octets around a refusal. */

const TRACE_COLUMNS = [
    "cell", "kind", "time, ns", "after the one before, ns", "gap, ns", "forward due", "rate, cells/s",
];
const DUE_WORDS = { first: "first cell", count: "Nrm", time: "Trm" };

/* What a row says of the forward rule; nothing where it is not judged. */
function dueWords(cell) {
    if (!cell.judged) return "";
    return cell.due === null ? "no" : DUE_WORDS[cell.due];
}

function cellRow(engine, cell, broken, sought) {
    const values = [
        thousands(cell.number), KINDS[cell.kind], thousands(cell.time), thousands(cell.passed),
        cell.gap === null ? "none at rate 0" : thousands(cell.gap), dueWords(cell),
        cellsPerSecond(engine, cell.rate).toLocaleString("en", { minimumFractionDigits: 3, maximumFractionDigits: 3 }),
    ];
    const kind = BigInt(cell.number) === broken ? "broken" : cell.judged ? "" : "unjudged";
    const mark = cell.number === sought ? "sought" : "";
    return element("tr", { class: `${kind} ${mark}`.trim() }, values.map((value) => element("td", {}, value)));
}

function cellTable(engine, { cells, verdict, sought }) {
    const head = element("tr", {}, TRACE_COLUMNS.map((name) => element("th", { scope: "col" }, name)));
    const rows = cells.map((cell) => cellRow(engine, cell, verdict.cell, sought));
    return element("div", { class: "scroll tall", tabindex: 0, role: "region", "aria-label": "The cells as a table" },
        element("table", { class: "numbers" }, element("thead", {}, head), element("tbody", {}, rows)));
}

function hex(octet) {
    return octet.toString(16).padStart(2, "0");
}

/* The octets around the one at which a trace is refused. */
function refusedOctets({ octet, around, length }) {
    const boxes = [...around.octets].map((value, place) => {
        const number = around.begin + place + 1;
        return element("span", { class: number === octet ? "octet wrong" : "octet" }, hex(value));
    });
    if (octet > length) boxes.push(element("span", { class: "octet wrong" }, "end"));
    const words = `Octets from ${thousands(around.begin + 1)} on; the refusal is seen at `;
    const place = octet > length ? "the end, behind the last." : `octet ${thousands(octet)}.`;
    return element("div", {}, element("p", { class: "note" }, words + place), element("p", { class: "octets" }, boxes));
}

/* Scrolls the table, and not the page, to the cell that was sought or breaks a rule, or the last one before a
 * refusal. */
function scrollTable(region, { cells, count, octet }) {
    const last = octet !== null && cells[cells.length - 1].number === count ? "tbody tr:last-child" : null;
    const row = ["tr.sought", "tr.broken", last].map((each) => each && region.querySelector(each)).find(Boolean);
    if (row) region.scrollTop = row.offsetTop - region.clientHeight / 2;
}
