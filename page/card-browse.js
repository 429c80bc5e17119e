/* Buttons and a box that lead to other cells of a trace than those that are shown. */
class CellBrowser {
    /* look is called with the first cell to show and the one that was sought, or null. */
    constructor(look) {
        Object.assign(this, { look, first: 1, shown: 0, count: 0 });
        const to = (name, words, first) => element("button", {
            type: "button", "aria-label": words, onclick: () => this.go(first()),
        }, name);
        this.box = element("input", { id: "sought", inputmode: "numeric", autocomplete: "off" });
        this.message = element("p", { class: "message", role: "alert" });
        const seek = element("form", { class: "seek", onsubmit: (event) => this.seek(event) },
            element("label", { for: "sought" }, "Cell"), this.box, element("button", { type: "submit" }, "Go to it"));
        this.root = element("div", { class: "browse", role: "group", "aria-label": "Other cells" },
            element("div", { class: "buttons" },
                to("First", "First cells", () => 1), to("Earlier", "Earlier cells", () => this.first - this.shown),
                to("Later", "Later cells", () => this.first + this.shown), to("Last", "Last cells", () => this.count),
                seek), this.message);
    }

    /* Takes which cells are shown, of how many. */
    show(cells, count) {
        Object.assign(this, { first: cells[0]?.number ?? 1, shown: cells.length, count });
        this.root.hidden = cells.length >= count;
        this.message.textContent = "";
    }

    go(first, sought = null) {
        this.message.textContent = "";
        this.look(first, sought);
    }

    seek(event) {
        event.preventDefault();
        const text = withoutCommas(this.box.value), number = /^[0-9]+$/.test(text) ? Number(text) : 0;
        const none = `There is no cell "${this.box.value}"; there are cells 1 to ${thousands(this.count)}.`;
        if (number >= 1 && number <= this.count) this.go(number - Math.floor(this.shown / 2), number);
        else this.message.textContent = none;
    }
}
