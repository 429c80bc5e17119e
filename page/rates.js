/*
 * Rates as codes, units, cells per second and megabits per second. abr_rate, abr_code and abr_import turn codes into
 * rates and back; a rate in units is ABR_RATE_ONE times its cells per second, and a cell has ABR_CELL_OCTETS octets.
 */

function codeText(code) {
    return `0x${code.toString(16).toUpperCase().padStart(4, "0")}`;
}

/* A number of 32 bits as people write it: hexadecimal with 0x before it, or decimal; null if it is none. */
function parseWord(text) {
    const number = /^(0x[0-9a-f]+|[0-9]+)$/i.test(text.trim()) ? Number(text) : Infinity;
    return number <= 0xffffffff ? number : null;
}

function cellBits(engine) {
    return engine.ABR_CELL_OCTETS * 8;
}

function megabits(engine, cells) {
    return cells * cellBits(engine) / 1e6;
}

/* A number with as many digits as are of use. */
function rateText(number) {
    return number.toLocaleString("en", { maximumFractionDigits: number < 100 ? 6 : 3 });
}

/* A code in words, or why it has no rate. */
function codeWords(engine, code) {
    const { refusal, rate } = engine.abr_rate(code);
    if (refusal !== engine.ABR_OK) return `refused with ${refusal}: ${engine.refusalText(refusal)}`;
    const cells = cellsPerSecond(engine, rate);
    return `${rateText(cells)} cells/s, ${rateText(megabits(engine, cells))} Mbit/s, ${thousands(rate)} units`;
}

/* What can be typed: how it is read, and what the library makes of it, an answer with refusal and code. */
const RATE_FORMS = [
    { id: "code", name: "Code (0x…)", read: parseWord, ask: (engine, code) => ({ ...engine.abr_rate(code), code }) },
    { id: "units", name: "Units of 1/512 cell/s", read: readUnits, ask: (engine, units) => engine.abr_code(units) },
    { id: "cells", name: "Cells per second", read: readRate, ask: (engine, cells) => engine.abr_import(cells) },
    { id: "megabits", name: "Megabits per second", read: readRate, ask: (engine, megabit) =>
        engine.abr_import(megabit / megabits(engine, 1)) },
];

/* A number without the commas between its thousands; with any other comma it is none. */
function withoutCommas(text) {
    const number = text.trim();
    return /^[1-9][0-9]{0,2}(,[0-9]{3})+(\.[0-9]*)?$/.test(number) ? number.replaceAll(",", "") : number;
}

function readUnits(text) {
    const digits = withoutCommas(text);
    return /^[0-9]{1,19}$/.test(digits) ? BigInt(digits) : null;
}

function readRate(text) {
    const digits = withoutCommas(text);
    return digits === "" || Number.isNaN(Number(digits)) ? null : Number(digits);
}

/* Why a text is no rate. */
function noRateWords(text) {
    if (text.trim() === "") return "It is empty";
    if (!text.includes(",")) return "That is no number that can stand here";
    return "A comma stands only between thousands, as in 1,000; what is less than 1 stands behind a point, as in 0.424";
}

/* What each form shows of a code. */
function rateForms(engine, code) {
    const { rate } = engine.abr_rate(code), cells = cellsPerSecond(engine, rate);
    const megabit = rateText(megabits(engine, cells));
    return { code: codeText(code), units: thousands(rate), cells: rateText(cells), megabits: megabit };
}

/* Four boxes, of which each that is typed in changes the others. */
class Rates {
    constructor(engine) {
        this.engine = engine;
        this.message = element("p", { class: "note", role: "status" });
        this.boxes = RATE_FORMS.map((form) => element("input", {
            id: `rate-${form.id}`, spellcheck: "false", autocomplete: "off", oninput: () => this.typed(form),
        }));
        const rows = RATE_FORMS.map(({ id, name }, place) => element("div", { class: "field" },
            element("label", { for: `rate-${id}` }, name), this.boxes[place]));
        this.root = element("div", { class: "panel" }, element("h2", {}, "A rate"),
            element("p", { class: "note" }, "Type in any of the boxes. Of the megabits a cell counts as " +
                `${cellBits(engine)} bits (${engine.ABR_CELL_OCTETS} octets).`),
            element("div", { class: "fields" }, rows), this.message);
        this.fill(null, rateForms(engine, engine.abr_import(1000).code));
        this.typed(RATE_FORMS[0]);
    }

    fill(typed, forms) {
        RATE_FORMS.forEach((form, place) => {
            if (form !== typed) this.boxes[place].value = forms[form.id];
        });
    }

    typed(form) {
        const { engine } = this, box = this.boxes[RATE_FORMS.indexOf(form)], value = form.read(box.value);
        const answer = value === null ? null : form.ask(engine, value);
        const wrong = answer === null || answer.refusal !== engine.ABR_OK;
        box.setAttribute("aria-invalid", String(wrong));
        this.message.classList.toggle("wrong", wrong);
        this.message.textContent = wrong ? this.wrongWords(form, value, answer) : this.words(form, value, answer);
        if (!wrong) this.fill(form, rateForms(engine, answer.code));
    }

    wrongWords(form, value, answer) {
        const typed = this.boxes[RATE_FORMS.indexOf(form)].value;
        const why = answer === null ? noRateWords(typed) : this.refusedWords(form, value, answer.refusal);
        return `${why}. The other boxes are of the rate before.`;
    }

    /* The refusal, with the greatest code or number of units, or with the cells per second that megabits are. */
    refusedWords({ id }, value, refusal) {
        const { engine } = this, greatest = rateForms(engine, engine.ABR_CODE_MAX)[id];
        const cells = id === "megabits" ? ` as ${rateText(value / megabits(engine, 1))} cells/s` : "";
        const most = id === "code" || id === "units" ? `; the greatest is ${greatest}` : "";
        return `Refused with ${refusal}${cells}: ${engine.refusalText(refusal)}${most}`;
    }

    words(form, value, answer) {
        const { engine } = this, code = codeText(answer.code), { rate } = engine.abr_rate(answer.code);
        const more = form.id === "units" ? cellsPerSecond(engine, value - rate) : answer.remainder ?? 0;
        if (more === 0) return `It is the rate of the code ${code}.`;
        return `It is ${rateText(more)} cells/s more than the rate of ${code}, the greatest code rate not above it.`;
    }
}
