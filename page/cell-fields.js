/* The fields of an RM cell, to be changed and written anew by abr_write_rm. */

const RM_CODES = ["er", "ccr", "mcr"], RM_FLAGS = ["dir", "bn", "ci", "ni", "ra"];
const FIELD_WORDS = {
    vpi: "VPI", vci: "VCI", dir: "DIR, backward", bn: "BN, not made by a source", ci: "CI, congestion",
    ni: "NI, no increase", ra: "RA", er: "ER code, explicit rate", ccr: "CCR code, current rate",
    mcr: "MCR code, minimum rate", ql: "QL", sn: "SN",
};
/* What is said below the cell that is written, by what its fields are of. */
const FIELDS_OF = {
    none: "The fields are of no cell.",
    former: "The fields are of an earlier cell: those of the last one can't be taken over.",
    data: "It is an RM cell: the library writes no data cells.",
};

/* What a field may be, asked of abr_write_rm with all others 0. */
class FieldRanges {
    constructor(engine) {
        Object.assign(this, { engine, most: {}, cell: new Uint8Array(engine.ABR_CELL_OCTETS) });
    }

    takes(name, value) {
        return this.engine.abr_write_rm({ ...noFields(), [name]: value }, this.cell) === this.engine.ABR_OK;
    }

    /* The greatest value, below the least that is refused. */
    greatest(name) {
        this.most[name] ??= Number(least((value) => !this.takes(name, Number(value)), 0xffffffffn) ?? 0x100000000n) - 1;
        return this.most[name];
    }
}

class Fields {
    constructor(engine, readAnew) {
        Object.assign(this, { engine, boxes: {}, words: {}, ranges: new FieldRanges(engine) });
        const rows = ["vpi", "vci"].map((name) => this.row(name));
        rows.push(element("div", { class: "flags" }, RM_FLAGS.map((name) => this.row(name))));
        rows.push(...[...RM_CODES, "ql", "sn"].map((name) => this.row(name)));
        this.message = element("p", { class: "message", role: "alert" });
        this.output = element("div", { class: "octets", "aria-label": "The cell written anew", role: "group" });
        this.differs = element("p", { class: "note", role: "status" });
        const button = (name, onclick) => element("button", { type: "button", onclick }, name);
        const copy = button("Copy", () => copyFrom(copy, octetsText(this.written)));
        this.root = element("div", { class: "panel" }, element("h2", {}, "Fields, written anew"),
            element("p", { class: "note" }, "Change a field: abr_write_rm writes the cell, with both checks. " +
                "ER, CCR and MCR are rates as codes (0x…); the rate of each stands behind it."),
            element("div", { class: "fields" }, rows), this.message, this.output, this.differs,
            element("div", { class: "buttons" }, copy, button("Read this one", () => readAnew(this.written))));
        this.load(noFields(), null);
        this.source = "none";
        this.keep();
    }

    row(name) {
        const flag = RM_FLAGS.includes(name), id = `field-${name}`;
        const kind = flag ? { type: "checkbox" } : { spellcheck: "false" };
        this.boxes[name] = element("input", { id, autocomplete: "off", ...kind, oninput: () => this.write() });
        this.words[name] = RM_CODES.includes(name) ? element("span", { class: "words" }) : null;
        const label = element("label", { for: id }, FIELD_WORDS[name]);
        const sort = flag ? "field flag" : RM_CODES.includes(name) ? "field code" : "field";
        return element("div", { class: sort }, label, this.boxes[name], this.words[name]);
    }

    /* Takes the fields of a cell, and its octets, with which the written ones are compared; of a data cell null. */
    load(rm, octets) {
        this.octets = octets;
        this.source = octets === null ? "data" : "read";
        for (const [name, box] of Object.entries(this.boxes)) {
            if (RM_FLAGS.includes(name)) box.checked = rm[name] === 1;
            else box.value = RM_CODES.includes(name) ? codeText(rm[name]) : String(rm[name]);
        }
        this.write();
    }

    /* The fields of the last cell can't be taken over: those that are there stay, and are compared with none. */
    keep() {
        this.octets = null;
        if (this.source !== "none") this.source = "former";
        this.show(this.written);
    }

    /* The fields as they stand in the boxes; one that is no number is null. */
    fields() {
        const value = (name, box) => RM_FLAGS.includes(name) ? Number(box.checked) : parseWord(box.value);
        return Object.fromEntries(Object.entries(this.boxes).map(([name, box]) => [name, value(name, box)]));
    }

    write() {
        const { engine } = this, rm = this.fields(), cell = new Uint8Array(engine.ABR_CELL_OCTETS);
        const refusal = Object.values(rm).includes(null) ? null : engine.abr_write_rm(rm, cell);
        const wrong = Object.keys(rm).filter((name) => rm[name] === null || !this.ranges.takes(name, rm[name]));
        for (const [name, box] of Object.entries(this.boxes)) {
            box.setAttribute("aria-invalid", String(wrong.includes(name)));
        }
        for (const name of RM_CODES) {
            this.words[name].textContent = wrong.includes(name) ? "" : codeWords(engine, rm[name]);
        }
        this.message.textContent = refusal === engine.ABR_OK ? "" : this.refused(refusal, wrong);
        if (refusal === engine.ABR_OK) this.show(cell);
    }

    refused(refusal, wrong) {
        const why = wrong.map((name) => this.wrongWords(name)).join("; ") || this.engine.refusalText(refusal);
        return `${refusal === null ? "" : `Refused with ${refusal}: `}${why}. The cell below stays as it was.`;
    }

    /* What a field that is wrong is, and what it may be. */
    wrongWords(name) {
        const typed = this.boxes[name].value.trim(), is = typed === "" ? "is empty" : `is "${typed}"`;
        const [low, high] = [0, this.ranges.greatest(name)].map(RM_CODES.includes(name) ? codeText : thousands);
        return `${name.toUpperCase()} ${is} and must be a number from ${low} to ${high}`;
    }

    show(cell) {
        const places = from(1, cell.length), before = this.octets ?? cell;
        const changed = places.filter((place) => cell[place - 1] !== before[place - 1]);
        this.written = cell;
        this.output.replaceChildren(...octetBoxes(cell, places, changed, "changed"));
        this.differs.textContent = this.comparison(changed);
    }

    comparison(changed) {
        if (this.source !== "read") return FIELDS_OF[this.source];
        if (changed.length === 0) return "It is the cell that was read, octet for octet.";
        return `It differs from the cell that was read in ${counted(changed.length, "octet")}: ${changed.join(", ")}.`;
    }
}
