/* The parts of a cell by their octets, as section 8 of the manual has them, and what is written in each. */

const from = (first, last) => Array.from({ length: last - first + 1 }, (_, place) => first + place);
const CELL_HEAD = [["header", from(1, 4)], ["header check", [HEADER_CHECK]]];
const RM_PARTS = [
    ...CELL_HEAD, ["protocol", [PROTOCOL]], ["flags", [7]],
    ["ER", from(8, 9)], ["CCR", from(10, 11)], ["MCR", from(12, 13)],
    ["QL", from(14, 17)], ["SN", from(18, 21)], ["reserved", from(22, 51)], ["CRC-10", CRC],
];
const DATA_PARTS = [...CELL_HEAD, ["payload", from(6, 53)]];

/* The bits of octets as one number. */
function numberAt(octets, places) {
    return places.reduce((sum, place) => sum * 256 + octets[place - 1], 0);
}

/* The header's fields as its bits have them. */
function headerWords(octets) {
    const bits = numberAt(octets, from(1, 4)), part = (shift, mask) => (bits >>> shift) & mask;
    const address = `GFC ${part(28, 0xf)}, VPI ${part(20, 0xff)}, VCI ${part(4, 0xffff)}`;
    return `${address}, payload type ${part(1, 7)}, CLP ${part(0, 1)}`;
}

function flagWords(octet) {
    return ["DIR", "BN", "CI", "NI", "RA"].map((name, place) => `${name} ${(octet >> (7 - place)) & 1}`).join(", ");
}

/* What a part says; checks are said by the faults. */
function partWords(engine, name, places, octets) {
    const number = numberAt(octets, places);
    switch (name) {
    case "header": return headerWords(octets);
    case "flags": return flagWords(number);
    case "ER": case "CCR": case "MCR": return `${codeText(number)}: ${codeWords(engine, number)}`;
    case "protocol": case "QL": case "SN": return thousands(number);
    case "CRC-10": return codeText(number & 0x3ff);
    default: return "";
    }
}

/* Octets as boxes; those at some places are marked. */
function octetBoxes(octets, places, marked, mark) {
    return places.map((place) => element("span", { class: marked.includes(place) ? `octet ${mark}` : "octet" },
        hex(octets[place - 1])));
}

function partPlaces(places) {
    if (places.length < 3) return `octet${places.length === 1 ? "" : "s"} ${places.join(", ")}`;
    return `octets ${places[0]} to ${places[places.length - 1]}`;
}

/* What a check is, right or not. */
function checkWords(name, places, faults) {
    const wrong = faults.find((fault) => places.includes(fault.places[0]));
    if (wrong) return element("em", { class: "bad" }, wrong.should === null ? "refused" : `should be ${wrong.should}`);
    return name === "header check" || name === "CRC-10" ? element("em", { class: "good" }, "right") : null;
}

/* All parts of a cell, a row for each. */
function cellParts(engine, octets, { faults, read }) {
    const isRm = read !== null && read.kind === engine.ABR_CELL_RM;
    const wrong = faults.flatMap((fault) => fault.places);
    return (isRm ? RM_PARTS : DATA_PARTS).map(([name, places]) => {
        const check = checkWords(name, places, faults), words = partWords(engine, name, places, octets);
        return element("tr", {},
            element("th", { scope: "row" }, name, element("small", {}, partPlaces(places))),
            element("td", {}, element("div", { class: "part" },
                element("div", { class: "octets" }, octetBoxes(octets, places, wrong, "wrong")),
                element("div", { class: "words" }, words, words && check ? ", " : "", check ?? ""))));
    });
}
