/*
 * The proved library in a browser: the WebAssembly module, and a function for each call of abr.h.
 *
 *   const engine = await loadEngine();              of the module that the page holds
 *   const table = engine.newTable();                an empty table, as a number that the calls take
 *   engine.clearTable(table);                       makes it empty again
 *   engine.abr_open(table, vpi, vci, time, params)  every call by its name, with its arguments in their order
 *   engine.ABR_SENT_DATA                            every constant of abr.h
 *   engine.refusalText(number)                      the text of a refusal
 *
 * What C has, and what it is here:
 *   uint32_t                a Number; one that is no whole number of 32 bits throws, since it would be cut
 *   uint64_t, int64_t       a BigInt
 *   double                  a Number
 *   a struct                an object with its fields by their names
 *   octets and their count  one Uint8Array, which has afterwards what the call wrote
 *   demands and their count one array of BigInts
 *   the refusal of abr_export   a field of its answer
 *
 * HEADER and MODULE are made by scripts/page; a struct has no padding, so that its fields say where they stand.
 */

const WIDTHS = { uint32_t: 4, uint64_t: 8, int64_t: 8, double: 8 };
const MEMORY_PAGE = 65536;

/* The octets of a struct or a number. */
function widthOf(kind) {
    return WIDTHS[kind] ?? LAYOUTS[kind].octets;
}

/* Of each struct its octets, and of each field its name, its kind and where it stands. */
const LAYOUTS = {};
for (const [struct, declared] of Object.entries(HEADER.structs)) {
    const layout = { octets: 0, fields: [] };
    for (const [name, kind] of declared) {
        layout.fields.push({ name, kind, at: layout.octets });
        layout.octets += widthOf(kind);
    }
    LAYOUTS[struct] = layout;
}

/* A number that C takes as uint32_t. WebAssembly would cut any other without a word. */
function word(value) {
    if (Number.isInteger(value) && value >= 0 && value <= 0xffffffff) return value;
    throw new RangeError(`${value} is no uint32_t`);
}

/* A number that C takes as uint64_t. */
function wide(value) {
    if (typeof value === "bigint" && BigInt.asUintN(64, value) === value) return value;
    throw new RangeError(`${value} is no uint64_t`);
}

/* Reads a struct or a number at an address. */
function readAt(view, at, kind) {
    switch (kind) {
    case "uint32_t": return view.getUint32(at, true);
    case "uint64_t": return view.getBigUint64(at, true);
    case "int64_t": return view.getBigInt64(at, true);
    case "double": return view.getFloat64(at, true);
    }
    const struct = {};
    for (const field of LAYOUTS[kind].fields) struct[field.name] = readAt(view, at + field.at, field.kind);
    return struct;
}

/* Writes a struct that a call takes; its fields are words. */
function writeAt(view, at, kind, struct) {
    for (const field of LAYOUTS[kind].fields) view.setUint32(at + field.at, word(struct[field.name]), true);
}

/* The memory of a module: tables stand from its start, and what a call needs for itself behind them. */
class Lent {
    constructor(exports) {
        this.memory = exports.memory;
        this.free = Math.ceil(exports.__heap_base.value / 64) * 64;
        this.tableOctets = 8 * exports.abr_table_words();
        this.look();
    }

    /* Sees that memory reaches as far; once it has grown it is another buffer. */
    reserve(to) {
        const missing = to - this.octets.length;
        if (missing <= 0) return;
        try {
            this.memory.grow(Math.ceil(missing / MEMORY_PAGE));
        } catch {
            throw new RangeError("the browser has no memory for it");
        }
        this.look();
    }

    look() {
        this.octets = new Uint8Array(this.memory.buffer);
        this.view = new DataView(this.memory.buffer);
    }

    newTable() {
        const table = this.free;
        this.free += Math.ceil(this.tableOctets / 64) * 64;
        this.reserve(this.free);
        this.clearTable(table);
        return table;
    }

    clearTable(table) {
        this.octets.fill(0, table, table + this.tableOctets);
    }
}

/* The arguments of one call as the module takes them. */
class Arguments {
    constructor(lent) {
        this.lent = lent;
        this.at = lent.free;
        this.passed = [];
        this.written = [];
    }

    /* Memory for so many octets, aligned as C aligns uint64_t. */
    place(octets) {
        const at = this.at;
        this.at += Math.ceil(octets / 8) * 8;
        this.lent.reserve(this.at);
        this.passed.push(at);
        return at;
    }

    octets(value, kind) {
        const at = this.place(value.length);
        this.lent.octets.set(value, at);
        this.passed.push(value.length);
        if (!kind.startsWith("const")) this.written.push([value, at]);
    }

    demands(values) {
        const at = this.place(8 * values.length);
        values.forEach((value, place) => this.lent.view.setBigUint64(at + 8 * place, wide(value), true));
        this.passed.push(values.length);
    }

    struct(value, kind) {
        const at = this.place(widthOf(kind));
        writeAt(this.lent.view, at, kind, value);
    }

    add(value, kind) {
        switch (kind) {
        case "uint32_t": case "abr_table *": case "const abr_table *": this.passed.push(word(value)); break;
        case "uint64_t": this.passed.push(wide(value)); break;
        case "double": this.passed.push(value); break;
        case "uint8_t *": case "const uint8_t *": this.octets(value, kind); break;
        case "const uint64_t *": this.demands(value); break;
        default: this.struct(value, kind);
        }
    }

    /* Puts what the call wrote into the arrays that were given. */
    giveBack() {
        for (const [value, at] of this.written) value.set(this.lent.octets.subarray(at, at + value.length));
    }
}

/* A call of the header as a function of its arguments. */
function callOf(lent, raw, { answer, takes }) {
    const given = takes.filter(([, kind]) => kind !== "size_t" && kind !== "uint32_t *");
    const refusalApart = takes.some(([, kind]) => kind === "uint32_t *");
    return (...values) => {
        if (values.length !== given.length) throw new TypeError(`${given.length} arguments, not ${values.length}`);
        const taken = new Arguments(lent);
        const at = answer in WIDTHS ? null : taken.place(widthOf(answer));
        given.forEach(([, kind], place) => taken.add(values[place], kind));
        const apart = refusalApart ? taken.place(4) : null;
        const number = raw(...taken.passed);
        taken.giveBack();
        if (at === null) return answer === "uint32_t" ? number >>> 0 : BigInt.asUintN(64, number);
        const fields = readAt(lent.view, at, answer);
        return refusalApart ? { refusal: lent.view.getUint32(apart, true), ...fields } : fields;
    };
}

/* The octets of the module. */
function moduleOctets() {
    return Uint8Array.from(atob(MODULE), (letter) => letter.charCodeAt(0));
}

async function loadEngine() {
    const { instance } = await WebAssembly.instantiate(moduleOctets(), {});
    const lent = new Lent(instance.exports);
    const engine = {
        ...HEADER.constants,
        newTable: () => lent.newTable(),
        clearTable: (table) => lent.clearTable(table),
        refusalText: (number) => HEADER.refusals[number] ?? "not an answer of this library",
    };
    for (const [name, call] of Object.entries(HEADER.calls)) engine[name] = callOf(lent, instance.exports[name], call);
    return engine;
}
