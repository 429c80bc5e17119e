/*
 * The numbers of a trace, written as octets or as decimal text, and read again. What they must be, abr_judge says: here
 * is only how they stand. A number has an octet for each seven of its bits, the low ones first; one of 128 or more is
 * not the last. The first two numbers are n and the Trm number, and three follow for each cell.
 */

const HEAD_NUMBERS = 2, CELL_NUMBERS = 3;
const KINDS = ["idle", "forward", "backward", "data"];

/* Octets one behind the other. */
class Row {
    constructor() {
        this.octets = new Uint8Array(64);
        this.length = 0;
    }

    push(octet) {
        if (this.length === this.octets.length) {
            const longer = new Uint8Array(2 * this.length);
            longer.set(this.octets);
            this.octets = longer;
        }
        this.octets[this.length++] = octet;
    }

    /* A number, a BigInt. One of more than 64 bits ends with a tenth octet that the judge refuses. */
    pushNumber(number) {
        for (let count = 1; number > 127n && count < 10; count++) {
            this.push(Number(number & 127n) | 128);
            number >>= 7n;
        }
        this.push(number > 127n ? 127 : Number(number));
    }

    all() {
        return this.octets.subarray(0, this.length);
    }
}

/* The octets of a trace of these numbers. */
function traceOf(numbers) {
    const row = new Row();
    for (const number of numbers) row.pushNumber(BigInt(number));
    return row.all();
}

/* The words of a text, each with where it begins. White space stands between them, and # begins a comment that ends
 * with its line. */
function* wordsOf(text) {
    for (const found of text.matchAll(/#.*|[^\s#]+/g)) {
        if (!found[0].startsWith("#")) yield { word: found[0], at: found.index };
    }
}

/* The line of a place in a text, counted from 1. */
function lineAt(text, at) {
    return text.slice(0, at).split(/\r\n|\n|\r/).length;
}

/* The line of a number of a text, counted from 1; null if it has no such number. */
function lineOfNumber(text, number) {
    for (const { at } of wordsOf(text)) {
        number -= 1;
        if (number === 0) return lineAt(text, at);
    }
    return null;
}

/* The error of a word that is no number, behind so many numbers; noTrace is whether the text looks like none. */
function noNumber(text, { word, at }, numbers) {
    const joined = /^[0-9]+[,;:|/]/.test(word), said = `"${word.slice(0, 40)}" is not a decimal number`;
    const hint = joined ? "; spaces or line ends stand between numbers" : "";
    const noTrace = !joined && numbers < HEAD_NUMBERS + CELL_NUMBERS;
    return Object.assign(new SyntaxError(`line ${lineAt(text, at)}: ${said}${hint}`), { noTrace });
}

/* The octets of the decimal numbers of a text. Throws an error that names the line of a word that is no number. */
function parseTrace(text) {
    const row = new Row();
    let numbers = 0;
    for (const found of wordsOf(text)) {
        if (!/^[0-9]+$/.test(found.word)) throw noNumber(text, found, numbers);
        row.pushNumber(BigInt(found.word));
        numbers += 1;
    }
    return row.all();
}

/* Whether a file is text: no trace begins as a text does, with a digit, white space, a comment or the mark of UTF-8. */
function isText(octets) {
    return octets.length > 0 && /[0-9#\s\u00ef]/.test(String.fromCharCode(octets[0]));
}

/* How many numbers end within octets. */
function countNumbers(octets) {
    let count = 0;
    for (let at = 0; at < octets.length; at++) count += octets[at] < 128 ? 1 : 0;
    return count;
}

/* What the number at a place, counted from 1, says. */
function fieldOf(number) {
    if (number <= HEAD_NUMBERS) return ["n", "the Trm number"][number - 1];
    const behind = number - HEAD_NUMBERS - 1, cell = Math.floor(behind / CELL_NUMBERS) + 1;
    return `the ${["time", "kind", "rate"][behind % CELL_NUMBERS]} of cell ${cell.toLocaleString("en")}`;
}

/* Reads the head and the cells of octets that the judge has read without refusing them. */
class TraceReader {
    constructor(octets) {
        Object.assign(this, { octets, at: 0, cells: 0, time: 0n });
        this.head = { n: Number(this.number()), trm: Number(this.number()) };
    }

    number() {
        let number = 0n, shift = 0n, octet;
        do {
            octet = this.octets[this.at++];
            number |= BigInt(octet & 127) << shift;
            shift += 7n;
        } while (octet > 127);
        return number;
    }

    cell() {
        const passed = this.number(), kind = Number(this.number()), rate = this.number();
        this.time += passed;
        return { number: ++this.cells, passed, time: this.time, kind, rate };
    }

    /* Passes over so many cells. Millions are summed as Numbers, which are exact up to 2^53. */
    pass(count) {
        const octets = this.octets;
        let at = this.at, sum = 0;
        for (let left = count; left > 0; left--) {
            const begin = at;
            let number = 0, unit = 1;
            for (; octets[at] > 127; at++, unit *= 128) number += (octets[at] & 127) * unit;
            number += octets[at++] * unit;
            if (sum + number > Number.MAX_SAFE_INTEGER) {
                this.at = begin;
                this.time += BigInt(sum) + this.number();
                sum = 0;
            } else {
                sum += number;
            }
            while (octets[at++] > 127);
            while (octets[at++] > 127);
        }
        Object.assign(this, { at, cells: this.cells + count, time: this.time + BigInt(sum) });
    }
}
