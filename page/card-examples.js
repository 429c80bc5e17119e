/*
 * Traces to begin with, as texts: that of a connection which the library itself sends, and three in which a number of
 * it is another.
 */

const TRACE_COMMENT = "# n and the Trm number; then for each cell the nanoseconds since the one before,\n" +
    "# its kind (1 forward, 2 backward, 3 data) and the rate before it, in units of 1/512 cell/s\n";

/* A row of 70 cells from slots of one connection that is held back after 20 ms, let go again, and answers the other
 * end. */
function sentCells(engine) {
    const table = engine.newTable(), cell = new Uint8Array(engine.ABR_CELL_OCTETS), cells = [];
    const [peak, low, floor] = [2000, 700, 100].map((rate) => engine.abr_import(rate).code);
    const flags = { dir: 1, bn: 0, ci: 0, ni: 0, ra: 0 }, rates = { er: peak, ccr: peak, mcr: floor };
    const receive = (changes) => {
        engine.abr_write_rm({ vpi: 0, vci: 32, ...flags, ...rates, ql: 0, sn: 0, ...changes }, cell);
        engine.abr_receive(table, cell);
    };
    engine.abr_open(table, 0, 32, 0n, engine.abr_house(peak, floor, peak));
    engine.abr_offer(table, 0, 32, 70n);
    for (let now = 0n, slot = 0; cells.length < 70; slot++, now += 250000n) {
        if (slot === 80) receive({ er: low });
        if (slot > 120 && slot % 8 === 0) receive({});
        if (slot % 45 === 30) receive({ dir: 0 });
        const time = engine.abr_slot_time(table, now, 1000000n), sent = engine.abr_slot(table, time, cell);
        if (sent.kind !== engine.ABR_SENT_IDLE) cells.push({ time, kind: sent.kind, rate: sent.acr_before });
    }
    return cells;
}

function goodTrace(engine) {
    const lines = [`${engine.ABR_HOUSE_N} ${engine.ABR_HOUSE_TRM}`];
    let last = 0n;
    for (const { time, kind, rate } of sentCells(engine)) {
        lines.push(`${time - last} ${kind} ${rate}`);
        last = time;
    }
    return lines;
}

/* The trace with a number of a cell changed. */
function changedTrace(engine, cell, place, change) {
    const lines = goodTrace(engine), numbers = lines[cell].split(" ");
    numbers[place] = change(numbers[place]);
    lines[cell] = numbers.join(" ");
    return lines;
}

/* The second forward cell. */
function secondForward(engine) {
    return goodTrace(engine).findIndex((line, cell) => cell > 1 && line.split(" ")[1] === "1");
}

const EXAMPLE_TRACES = [
    ["A good card", (engine) => goodTrace(engine)],
    ["One that sends early", (engine) => changedTrace(engine, 48, 0, (time) => String(Number(time) - 1))],
    ["One that misses a forward cell", (engine) => changedTrace(engine, secondForward(engine), 1, () => "3")],
    ["A damaged file", (engine) => changedTrace(engine, 57, 1, () => "9")],
];

/* The text of an example. */
function exampleTrace(engine, make) {
    return `${TRACE_COMMENT}${make(engine).join("\n")}\n`;
}
