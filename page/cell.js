/* The Cell tab: 53 octets in hexadecimal are read by abr_read, with all that is wrong and what would be right. */

/* The octets of a text in hexadecimal; separators and 0x may stand between them. Throws what is wrong with it. */
function parseOctets(text) {
    const digits = text.replace(/0x/gi, " ").replace(/[\s,;:]/g, "");
    const wrong = digits.match(/[^0-9a-f]/i);
    if (wrong) throw new SyntaxError(`"${wrong[0]}" is no hexadecimal digit`);
    if (digits === "") throw new SyntaxError("there is no octet");
    if (digits.length % 2 === 1) throw new SyntaxError(`${counted(digits.length, "digit")} can't be whole octets`);
    return Uint8Array.from(digits.match(/../g), (pair) => parseInt(pair, 16));
}

/* Cells to begin with, written by the library. */
function exampleCells(engine) {
    const code = (rate) => engine.abr_import(rate).code, none = { dir: 0, bn: 0, ci: 0, ni: 0, ra: 0, ql: 0, sn: 0 };
    const rates = { er: code(2000), ccr: code(1000), mcr: code(100) };
    const written = (changes) => {
        const cell = new Uint8Array(engine.ABR_CELL_OCTETS);
        engine.abr_write_rm({ vpi: 0, vci: 32, ...none, ...rates, ...changes }, cell);
        return cell;
    };
    const backward = { vpi: 1, vci: 100, dir: 1, ci: 1, er: code(353207) };
    const data = withOctets(new Uint8Array(engine.ABR_CELL_OCTETS), { 2: 0x10, 3: 0x06, 4: 0x44 });
    return [
        ["A forward cell", written({})], ["A backward cell", written(backward)],
        ["A data cell", rightHeaderCheck(engine, data)],
        ["A damaged cell", withOctets(written(backward), { 5: 0x4f, 9: 0xff })],
    ];
}

class Cell {
    constructor(root, engine) {
        Object.assign(this, { root, engine, octets: null });
        this.text = element("textarea", { id: "octets", rows: 4, spellcheck: "false", autocomplete: "off" });
        this.text.addEventListener("input", () => this.read());
        this.message = element("p", { class: "message", role: "alert" });
        this.verdict = element("div", { class: "verdict", role: "status" });
        this.parts = element("tbody");
        this.fields = new Fields(engine, (octets) => this.readAnew(octets));
        root.append(element("div", { class: "columns" },
            element("div", {}, this.controls(), this.verdict, this.partsPanel()),
            element("div", {}, this.fields.root, new Rates(engine).root)));
    }

    controls() {
        const examples = exampleCells(this.engine).map(([name, octets]) => element("button", {
            type: "button", class: "plain", onclick: () => this.readAnew(octets),
        }, name));
        return element("div", { class: "panel" },
            element("h2", {}, "A cell to read"),
            element("label", { for: "octets" }, "53 octets in hexadecimal"), this.text,
            element("div", { class: "buttons" }, element("span", { class: "examples" }, "or try ", examples)),
            this.message);
    }

    partsPanel() {
        const caption = element("caption", { class: "unseen" }, "The parts of the cell");
        this.table = element("div", { class: "panel", hidden: true },
            element("table", { class: "parts" }, caption, this.parts));
        return this.table;
    }

    readAnew(octets) {
        this.text.value = octetsText(octets);
        this.read();
    }

    read() {
        try {
            this.show(parseOctets(this.text.value));
        } catch (error) {
            const former = this.octets === null ? "" : " What stands below is of the cell before.";
            this.message.textContent = `That is no cell: ${error.message}.${former}`;
            this.mark(this.octets !== null);
            this.fields.keep();
        }
    }

    mark(former) {
        for (const part of [this.verdict, this.table]) part.classList.toggle("former", former);
    }

    show(octets) {
        const { engine } = this, whole = octets.length === engine.ABR_CELL_OCTETS, answer = engine.abr_read(octets);
        this.message.textContent = "";
        this.octets = octets;
        this.mark(false);
        const checked = whole ? checkCell(engine, octets) : { faults: [], read: null };
        this.say(octets, answer, checked);
        this.table.hidden = !whole;
        if (checked.read === null) this.fields.keep();
        else this.fields.load(checked.read.rm, checked.read.kind === engine.ABR_CELL_RM ? octets : null);
        if (!whole) return;
        this.parts.replaceChildren(...cellParts(engine, octets, checked));
        setAddress("cell", `octets=${this.digits()}`);
    }

    /* The sentence with the first refusal, and those that would follow it. */
    say(octets, answer, { faults: [first, ...others], read }) {
        const { engine } = this, good = answer.refusal === engine.ABR_OK;
        const does = good ? "The library reads it" : `The library refuses it with ${answer.refusal}`;
        const count = `${engine.refusalText(answer.refusal)}; it has ${octets.length}`;
        const why = good ? this.cellWords(answer) : first ? this.faultWords(first) : count;
        this.verdict.className = `verdict ${good ? "good" : "bad"}`;
        this.verdict.replaceChildren(element("p", {}, element("strong", {}, `${does}:`), ` ${why}.`));
        if (others.length > 0) this.verdict.append(element("p", {}, "With that put right it would refuse it with"),
            element("ul", {}, others.map((fault) => element("li", {}, `${fault.refusal}: ${this.faultWords(fault)}`))));
        if (!first || read === null) return;
        const all = others.length > 0 ? "all that" : "that";
        this.verdict.append(element("p", {}, `With ${all} put right it is ${this.cellWords(read)}.`));
    }

    cellWords({ kind, efci, rm }) {
        const { engine } = this, of = `of VPI ${rm.vpi}, VCI ${rm.vci}`;
        if (kind === engine.ABR_CELL_DATA) return `a data cell ${of}, ${efci ? "with" : "without"} the congestion mark`;
        return `a ${rm.dir ? "backward" : "forward"} RM cell ${of}`;
    }

    faultWords({ refusal, name, is, should }) {
        const text = this.engine.refusalText(refusal);
        return should === null ? text : `${text}; ${name} is ${is} and should be ${should}`;
    }

    load(query) {
        const octets = new URLSearchParams(query).get("octets");
        if (octets !== null && octets !== this.digits()) {
            this.text.value = octets;
            this.read();
        } else if (this.octets === null && this.text.value === "") {
            this.readAnew(exampleCells(this.engine)[1][1]);
        } else {
            setAddress("cell", `octets=${this.digits()}`);
        }
    }

    /* The cell that is shown, as the address has it. */
    digits() {
        return octetsText(this.octets ?? []).replaceAll(" ", "");
    }
}

function cellTab(root, engine) {
    return new Cell(root, engine);
}
