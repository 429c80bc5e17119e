/* The Card tab: a trace is dropped, chosen or pasted, and judged by abr_judge. */

/* What the edges of a panel take of its width. */
const PANEL_EDGES = 34;

function fileButton(give) {
    const input = element("input", { type: "file", class: "unseen", tabindex: -1, "aria-label": "Trace file" });
    input.addEventListener("change", () => {
        if (input.files.length > 0) give(input.files[0]);
        input.value = "";
    });
    const button = element("button", { type: "button", onclick: () => input.click() }, "Choose a file");
    return element("span", {}, button, input);
}

/* The octets of a file, with the share that is read. */
function readFile(file, progress) {
    return new Promise((resolve, reject) => {
        const reader = new FileReader();
        reader.onprogress = ({ loaded, total }) =>
            progress({ what: "reading the file", done: total ? loaded / total : null });
        reader.onload = () => resolve(reader.result);
        reader.onerror = () => reject(new Error("the file can't be read"));
        reader.readAsArrayBuffer(file);
    });
}

/* The text of the box outlives a reload if it is small, and if the browser has a place for it. */
const KEPT_AS = "abr trace", KEPT_MOST = 250000;

function keepText(text) {
    try {
        sessionStorage.setItem(KEPT_AS, text.length > KEPT_MOST ? "" : text);
    } catch {
        /* then it is not kept */
    }
}

function keptText() {
    try {
        return sessionStorage.getItem(KEPT_AS) ?? "";
    } catch {
        return "";
    }
}

class Card {
    constructor(root, engine) {
        Object.assign(this, { root, engine, judge: null, next: null, judged: null, turn: 0, looks: 0 });
        this.text = element("textarea", { id: "trace", rows: 8, spellcheck: "false", autocomplete: "off" });
        this.message = element("p", { class: "message", role: "alert" });
        this.progress = element("progress", { max: 1, "aria-label": "Progress" });
        this.doing = element("p", { class: "doing", hidden: true }, this.progress, element("span", { role: "status" }));
        this.former = element("p", { class: "note", hidden: true }, "What stands below is of the trace before.");
        this.verdict = element("div", { class: "verdict", role: "status" });
        root.append(this.controls(), this.doing, this.former, this.verdict, this.results());
        this.text.value = keptText();
        this.listen();
    }

    /* What stays while other cells are looked at, so that the focus stays too. */
    results() {
        this.octets = element("div", { class: "panel", hidden: true });
        this.heading = element("p", { class: "note", role: "status" });
        this.browser = new CellBrowser((first, sought) => this.look(first, sought));
        this.picture = element("div");
        this.sideways = element("p", { class: "note" }, "The table is wider than its place: it scrolls sideways.");
        this.table = element("div");
        this.cells = element("div", { hidden: true },
            element("div", { class: "panel" }, this.heading, this.browser.root, this.picture),
            element("div", { class: "panel" }, this.sideways, this.table));
        this.details = element("div", { class: "details" }, this.octets, this.cells);
        return this.details;
    }

    controls() {
        const examples = EXAMPLE_TRACES.map(([name, make]) => element("button", {
            type: "button", class: "plain", onclick: () => this.example(make),
        }, name));
        const judge = element("button", { type: "button", class: "main", onclick: () => this.judgeText() }, "Judge");
        return element("div", { class: "panel" },
            element("h2", {}, "A card to judge"),
            element("p", { class: "note" }, "The cells that a transmitter sent on one connection, from the first on: " +
                "drop a trace file, or paste decimal numbers, n and the Trm number, then for each cell the " +
                "nanoseconds since the one before, its kind (1 forward, 2 backward, 3 data) and the rate before it, " +
                `in units of 1/${this.engine.ABR_RATE_ONE} cell per second. Spaces or line ends stand between ` +
                "numbers; what stands behind # in a line is a comment."),
            element("label", { for: "trace" }, "Decimal numbers"), this.text,
            element("div", { class: "buttons" }, judge, fileButton((file) => this.judgeFile(file)),
                element("span", { class: "examples" }, "or try ", examples)),
            this.message);
    }

    listen() {
        this.text.addEventListener("paste", () => setTimeout(() => this.judgeText()));
        this.text.addEventListener("input", () => keepText(this.text.value));
        /* on the whole page: a file dropped beside its place would take the place of the page */
        document.addEventListener("dragover", (event) => {
            event.preventDefault();
            this.root.classList.add("over");
        });
        document.addEventListener("dragleave", () => this.root.classList.remove("over"));
        document.addEventListener("drop", (event) => this.drop(event));
        new ResizeObserver(() => {
            if (this.details.clientWidth !== this.drawnWidth) this.draw();
        }).observe(this.details);
    }

    drop(event) {
        event.preventDefault();
        this.root.classList.remove("over");
        if (event.dataTransfer.files.length === 0) return;
        location.hash = "card";
        this.judgeFile(event.dataTransfer.files[0]);
    }

    example(make) {
        this.text.value = exampleTrace(this.engine, make);
        this.judgeText();
    }

    judgeText() {
        keepText(this.text.value);
        return this.run("The trace", false, () => this.text.value);
    }

    judgeFile(file) {
        return this.run(file.name, true, () => readFile(file, (step) => this.step(step)));
    }

    /* Judges what is given; a later call takes the place of an earlier one. What was judged before stays until then,
     * marked as such. */
    async run(name, isFile, give) {
        const turn = ++this.turn;
        this.next?.stop();
        this.next = null;
        this.message.textContent = "";
        this.mark(this.judged !== null);
        this.step({ what: "beginning", done: null });
        try {
            const source = await give();
            if (turn !== this.turn) return;
            this.next = new Judge(source, (step) => this.step(step));
            const judged = await this.next.judged;
            if (turn === this.turn) this.show(name, isFile, judged);
        } catch (error) {
            if (turn === this.turn) this.fail(name, isFile && error.noTrace, error);
        }
        if (turn === this.turn) this.doing.hidden = true;
    }

    mark(former) {
        this.former.hidden = !former;
        for (const part of [this.verdict, this.details]) part.classList.toggle("former", former);
    }

    step({ what, done }) {
        this.doing.hidden = false;
        this.doing.lastChild.textContent = what;
        if (done === null) this.progress.removeAttribute("value");
        else this.progress.value = done;
    }

    /* What can't be judged is said, and the former result stays. */
    fail(name, noTrace, error) {
        this.next?.stop();
        this.next = null;
        this.message.textContent = `${name} can't be judged: ${error.message}.${noTrace ? ` ${NO_TRACE}` : ""}`;
    }

    show(name, isFile, judged) {
        const { does, why } = sentenceOf(this.engine, judged), good = does === "passes";
        this.judge?.stop();
        Object.assign(this, { judged, judge: this.next, next: null });
        this.verdict.className = `verdict ${good ? "good" : "bad"}`;
        this.verdict.replaceChildren(element("p", {}, element("strong", {}, `${name} ${does}:`), ` ${why}.`));
        if (isFile && looksLikeNone(this.engine, judged)) this.verdict.append(element("p", {}, NO_TRACE));
        this.mark(false);
        this.draw();
    }

    /* Shows the cells from one on; sought is the one that is marked, or null. */
    async look(first, sought) {
        const { judge, judged } = this, turn = ++this.looks, cells = await judge.cells(first);
        if (judge !== this.judge || turn !== this.looks) return;
        Object.assign(judged, { cells, sought });
        this.draw();
    }

    draw() {
        if (this.judged === null) return;
        const { judged } = this;
        this.drawnWidth = this.details.clientWidth;
        this.octets.hidden = !judged.around;
        if (judged.around) this.octets.replaceChildren(refusedOctets(judged));
        this.cells.hidden = judged.cells.length === 0;
        if (judged.cells.length > 0) this.drawCells();
    }

    drawCells() {
        const { judged, engine } = this, width = Math.max(280, this.drawnWidth - PANEL_EDGES);
        const table = cellTable(engine, judged);
        this.heading.textContent = this.shownWords();
        this.browser.show(judged.cells, judged.count);
        this.picture.replaceChildren(tracePicture(engine, judged, width));
        this.table.replaceChildren(table);
        this.sideways.hidden = table.scrollWidth <= table.clientWidth;
        scrollTable(table, judged);
    }

    shownWords() {
        const { cells, count, head, octet } = this.judged, of = octet === null ? "" : " before the refusal";
        const [first, last] = [cells[0], cells[cells.length - 1]].map(({ number }) => thousands(number));
        const rules = `Nrm ${head.nrm}, Trm ${thousands(head.trmTime)} ns, as abr_judge has them`;
        const shown = first === last ? `Cell ${first}` : `Cells ${first} to ${last}`;
        return `${shown} of ${thousands(count)}${of}; ${rules}.`;
    }
}

function cardTab(root, engine) {
    new Card(root, engine);
    return { load: () => {} };
}
