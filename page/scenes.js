/*
 * The settings of a link, how the address codes them, and the scenes that are ready.
 *
 * A code is assignments joined by &, of whole numbers: line=10000 of the network, 2.pcr=500 of connection 2, and with a
 * time in microseconds before it, 3000!2.er=100, a value that changes while the scene runs. What is not named has its
 * default. Changes stand in the order of their times.
 */

/* The values of the network: default, least, most, what it is, its unit. */
const NETWORK_FIELDS = {
    lag: [4, 0, 64, "Lag of abr_slot_time", "slots"],
    cdvt: [4, 0, 64, "Policer's tolerance", "slots"],
    share: [95, 0, 100, "Explicit rates, 0 for none", "% of the port"],
    loss: [0, 0, 1000, "RM cells lost", "of 1,000"],
    line: [10000, 100, 400000, "Line", "cells/s"],
    port: [6000, 1, 400000, "Port", "cells/s"],
    trip: [10000, 0, 200000, "Round trip", "µs"],
    buffer: [1000, 1, 4000, "Buffer", "cells"],
    efci: [0, 0, 4000, "EFCI from, 0: none", "cells"],
    level: [0, 0, 2, "Far end marks", ""],
    span: [600, 10, 10000, "Time shown", "ms"],
    seed: [1, 1, 4294967295, "Seed of losses", ""],
};

/* The values of a connection. The rates of its contract are made codes, rounded down. */
const CONNECTION_FIELDS = {
    open: [0, 0, 1, "Open", ""],
    pcr: [2500, 1, 400000, "PCR", "cells/s"],
    mcr: [100, 0, 400000, "MCR", "cells/s"],
    icr: [1000, 0, 400000, "ICR", "cells/s"],
    members: [0, 0, 8, "Members, 0: channel", ""],
    data: [1, 0, 3, "Data", ""],
    burst: [100, 1, 10000, "Burst", "cells"],
    every: [100, 1, 10000, "Every", "ms"],
    rate: [200, 1, 400000, "Rate", "cells/s"],
    zero: [0, 0, 1, "Explicit rate of 0", ""],
    n: [5, 1, 8, "Nrm = 2^n", "n"],
    r: [4, 0, 15, "RIF = 1/2^r", "r"],
    d: [4, 0, 15, "RDF = 1/2^d", "d"],
    c: [4, 0, 7, "CDF = 1/2^c, 7 for none", "c"],
    tbe: [16777215, 1, 16777215, "TBE", "cells"],
    frtt: [0, 0, 16700000, "FRTT", "µs"],
    adtf: [50, 1, 1023, "ADTF", "10 ms"],
    trm: [7, 0, 7, "Trm = 100/2^(7-x) ms", "x"],
};
const CONNECTIONS = 8, CHANGES = 256;
const MICROSECONDS = 1e9; /* the latest time of a change */

const defaults = (fields) => Object.fromEntries(Object.entries(fields).map(([name, [value]]) => [name, value]));

/* Settings in which no connection is open. */
function plainSettings() {
    const connections = Array.from({ length: CONNECTIONS }, () => defaults(CONNECTION_FIELDS));
    return { network: defaults(NETWORK_FIELDS), connections, changes: [] };
}

/* The bounds of a value: those of its field; er is no value that stays, but a backward cell. */
function boundsOf(connection, name) {
    if (connection > 0 && name === "er") return [0, 4000000];
    const fields = connection === 0 ? NETWORK_FIELDS : CONNECTION_FIELDS;
    return Object.hasOwn(fields, name) ? fields[name].slice(1, 3) : null;
}

/* One assignment; an error says what is wrong with it. */
function assignment(text) {
    const found = /^(?:(\d{1,10})!)?(?:([1-8])\.)?([a-z]+)=(\d{1,10})$/.exec(text);
    if (!found) throw new Error(`"${text}" is no setting`);
    const connection = Number(found[2] ?? 0), name = found[3], value = Number(found[4]);
    const time = found[1] === undefined ? null : Number(found[1]), bounds = boundsOf(connection, name);
    if (bounds === null || (name === "er" && time === null)) throw new Error(`"${text}" names no setting`);
    if (value < bounds[0] || value > bounds[1]) throw new Error(`"${text}": from ${bounds[0]} to ${bounds[1]}`);
    if (time > MICROSECONDS) throw new Error(`"${text}" is too late`);
    return { time, connection, name, value };
}

/* What is wrong with the rates of a connection: MCR <= ICR <= PCR. */
function contractError(values, number) {
    const { mcr, icr, pcr } = values, text = (rate) => rate.toLocaleString("en");
    if (mcr > icr) return `connection ${number}: MCR ${text(mcr)} is above ICR ${text(icr)}`;
    return icr > pcr ? `connection ${number}: ICR ${text(icr)} is above PCR ${text(pcr)}` : null;
}

/* What is wrong with the contracts, at the start or after one of the changes; null if nothing is. */
function settingsError({ connections, changes }) {
    const values = connections.map((each) => ({ ...each }));
    const first = values.map((each, place) => contractError(each, place + 1)).find((wrong) => wrong !== null);
    const later = changes.filter(({ connection }) => connection > 0).map(({ connection, name, value }) => {
        values[connection - 1][name] = value;
        return contractError(values[connection - 1], connection);
    });
    return first ?? later.find((wrong) => wrong !== null) ?? null;
}

/* The settings of a code. */
function decodeSettings(code) {
    const settings = plainSettings();
    for (const text of code.split("&").filter((part) => part !== "")) {
        const { time, connection, name, value } = assignment(text);
        if (time !== null) settings.changes.push({ time, connection, name, value });
        else (connection === 0 ? settings.network : settings.connections[connection - 1])[name] = value;
    }
    if (settings.changes.length > CHANGES) throw new Error(`more than ${CHANGES} changes`);
    settings.changes.sort((one, other) => one.time - other.time);
    const wrong = settingsError(settings);
    if (wrong) throw new Error(wrong);
    return settings;
}

/* The code of settings: what differs from the defaults. */
function encodeSettings(settings) {
    const parts = [];
    const add = (prefix, fields, values) => {
        for (const [name, [value]] of Object.entries(fields)) {
            if (values[name] !== value) parts.push(`${prefix}${name}=${values[name]}`);
        }
    };
    add("", NETWORK_FIELDS, settings.network);
    settings.connections.forEach((values, place) => add(`${place + 1}.`, CONNECTION_FIELDS, values));
    for (const { time, connection, name, value } of settings.changes) {
        parts.push(`${time}!${connection === 0 ? "" : `${connection}.`}${name}=${value}`);
    }
    return parts.join("&");
}

/* The scenes: a name for the address, a title, how long it is run in the test (ms), what one sees, and the code. */
const SCENES = [
    {
        name: "two", title: "Two connections", until: 15,
        text: `The scene of make demo: two connections on a line of 4,000 cells per second, each allowed 2,000. At 3
            ms a backward cell gives the first an explicit rate of 500: its next cell waits the longer gap at once.
            From 8 ms on backward cells give 2,000 again, and the rate climbs by a sixteenth of the peak with each.`,
        code: ["line=4000&lag=2&trip=200000&port=4000&share=0&cdvt=2&span=14",
            "1.open=1&1.pcr=2000&1.icr=2000&2.open=1&2.pcr=2000&2.icr=2000",
            "3000!1.er=500&8000!1.er=2000&10000!1.er=2000&12000!1.er=2000&14000!1.er=2000"],
    },
    {
        name: "leased", title: "A leased circuit beside greedy ones", until: 600,
        text: `Connection 1 is a leased circuit: its minimum is its peak. The others take what is left. Every cell of
            the minimum is there, because each slot is passed the time of abr_slot_time. Set the lag to 0: each slot
            is passed its own time, and a sixth of the cells is missing. Set the lag back to 4 and the policer's
            tolerance below it, to 0: it would drop cells.`,
        code: ["line=10000&lag=4&port=9900&share=100&trip=10000",
            "1.open=1&1.pcr=2400&1.mcr=2400&1.icr=2400&2.open=1&3.open=1&4.open=1"],
    },
    {
        name: "loop", title: "The closed loop", until: 1500,
        text: `Eight sources share a port of 12,000 cells per second, which writes their fair share into passing
            backward cells (abr_fair_share, abr_limit). Demands come and go: the dashed line is the share above the
            minimum, and the rates follow it down at once, up in steps. Connection 5 has a minimum of 1,500, and
            connection 6 asks for 600 only, which leaves more for the others.`,
        code: ["line=40000&lag=8&port=12000&share=100&trip=10000&span=1500",
            ...[1, 2, 3, 4, 5, 6, 7, 8].map((k) => `${k}.pcr=5000&${k}.mcr=0&${k}.icr=500&${k}.adtf=20`),
            "1.open=1&2.open=1&2.r=5&3.open=1&3.pcr=1500&4.open=1&5.mcr=1500&5.icr=1500&6.data=3&6.rate=600&8.r=6",
            "200000!5.open=1&200000!6.open=1&400000!7.open=1&450000!4.data=0&600000!8.open=1&750000!4.data=1",
            "950000!7.open=0&1100000!8.open=0&1250000!4.open=0&1400000!5.open=0"],
    },
    {
        name: "zero", title: "A rate of 0 that comes back", until: 600,
        text: `Neither connection has a minimum. From 100 to 330 ms the network gives connection 1 an explicit rate of
            0: it stops. Every 100 ms an out-of-rate cell (x in the row of slots) asks for a rate. The first that is
            answered after 330 ms brings it back. Connection 2 takes the room meanwhile.`,
        code: ["line=10000&lag=2&port=4000&trip=8000&share=95",
            "1.open=1&1.mcr=0&1.pcr=4000&1.trm=3&2.open=1&2.mcr=0&2.pcr=4000&2.trm=3",
            "100000!1.zero=1&330000!1.zero=0"],
    },
    {
        name: "marks", title: "Marks, and lost RM cells", until: 800,
        text: `The network writes no rates: it marks data cells while 20 or more are queued. The far end turns the
            mark into CI, and the rates rise and fall by a sixteenth. From 400 ms on half of the RM cells is lost:
            more than two unanswered forward cells (TBE 64) lower a rate too, and nothing comes to a stop.`,
        code: ["line=10000&lag=3&port=5000&trip=4000&share=0&efci=20&span=800",
            ...[1, 2, 3].map((k) => `${k}.open=1&${k}.pcr=3000&${k}.tbe=64`), "400000!loss=500"],
    },
    {
        name: "path", title: "A path with members", until: 500,
        text: `Connection 1 is a path: one rate loop for four members, which are served in turn. Connection 2 is a
            channel with data in bursts, connection 3 a trickle. The port shares its room between the path and the
            channels; how many members the path has does not matter.`,
        code: ["line=10000&lag=3&port=5000&trip=6000&share=95&span=500",
            "1.open=1&1.members=4&1.pcr=4000&1.mcr=500&2.open=1&2.data=2&2.burst=150&2.every=120&3.open=1&3.data=3"],
    },
].map((scene) => ({ ...scene, text: scene.text.replace(/\s+/g, " "), code: scene.code.join("&") }));

/* The scene of a name, or nothing. */
function sceneOf(name) {
    return SCENES.find((scene) => scene.name === name) ?? null;
}
