/*
 * The tab of the link: a scene is chosen, run, paused and stepped, and every value can be changed while it runs. The
 * address has the settings, and every change with its time, so that whoever loads it sees the same.
 */

/* Simulated time in a second of real time. */
const SPEEDS = [[1, "1 ms"], [5, "5 ms"], [20, "20 ms"], [100, "100 ms"], [300, "300 ms"], [1000, "1 s"]];
const FRAME_WORK = 12; /* milliseconds of a frame that slots may take */
const DRAGS = 20; /* a slider that is dragged is read so often in the time shown */
const COMING = 12; /* changes that are listed */

class LinkTab {
    constructor(root, engine) {
        this.engine = engine;
        this.tables = [engine.newTable(), engine.newTable()];
        this.drawing = new LinkDrawing();
        const change = (...words) => this.change(...words);
        change.settle = () => this.settle();
        this.controls = new NetworkControls(change);
        this.connections = Array.from({ length: CONNECTIONS }, (_, place) => new ConnectionControls(place + 1, change));
        this.switch = new SwitchView(engine, (query) => this.keep(query));
        this.running = false;
        root.append(this.head(), this.body = this.makeBody(), this.switch.element);
        matchMedia("(prefers-color-scheme: dark)").addEventListener("change", () => this.draw());
        addEventListener("resize", () => this.draw());
    }

    /* The scene and what it shows, and the buttons. */
    head() {
        const options = [...SCENES.map(({ name, title }) => [name, title]), ["switch", SwitchView.title]];
        const other = element("option", { value: "", hidden: true }, "Settings of an address");
        this.scenes = element("select", { id: "link-scene", onchange: () => this.load(`scene=${this.scenes.value}`) },
            options.map(([value, title]) => element("option", { value }, title)), other);
        const speed = ([value, text]) => element("option", { value }, `${text} a second`);
        this.speeds = element("select", { id: "link-speed" }, SPEEDS.map(speed));
        const button = (text, onclick, name = "") => element("button", { type: "button", class: name, onclick }, text);
        this.runButton = button("Run", () => this.toggle(), "main");
        this.text = element("p", { class: "scene-text" });
        this.clock = element("output", { class: "clock" });
        this.message = element("p", { class: "message", role: "alert" });
        this.wrong = element("p", { class: "message", role: "alert" });
        this.coming = element("p", { class: "note coming" });
        const label = element("label", { for: "link-speed" }, "Speed");
        this.buttons = element("div", { class: "buttons" }, this.runButton, button("Step", () => this.step(1)),
            button("Restart", () => this.restart()), button("Restart from these values", () => this.fromValues()),
            element("span", { class: "speed" }, label, this.speeds), this.clock);
        this.changed = element("span", { role: "status" });
        const shown = () => new URL(`#link?${this.query}`, location.href).href;
        const copy = button("Copy address", () => copyFrom(copy, shown()), "plain");
        const choice = element("div", { class: "scene-choice" }, element("label", { for: "link-scene" }, "Scene"),
            this.scenes, this.changed, copy);
        return element("div", { class: "panel" }, choice, this.text, this.buttons, this.message, this.wrong,
            this.coming);
    }

    makeBody() {
        const drawings = element("div", { class: "panel" }, this.drawing.element);
        return element("div", {}, element("div", { class: "columns link-columns" }, drawings, this.controls.element),
            element("div", { class: "connections" }, this.connections.map((each) => each.element)));
    }

    /* What the address names: a scene, the switch, or settings. What cannot be read is said, and changes nothing. */
    load(query) {
        if (!this.network) {
            this.begin(SCENES[0].name, decodeSettings(SCENES[0].code));
            this.query = `scene=${this.scene}`;
        } else if (query === "" || query === this.query) {
            this.keep(this.query);
            this.draw();
            return;
        }
        try {
            this.follow(query === "" ? `scene=${SCENES[0].name}` : query);
        } catch (error) {
            this.message.textContent = `The address cannot be read: ${error.message}.`;
        }
    }

    /* Shows what a query names. */
    follow(query) {
        const parts = query.split("&"), named = parts[0].startsWith("scene=") ? parts.shift().slice(6) : "";
        if (named === "switch") {
            const values = this.switch.read(parts);
            this.showSwitch(true);
            this.switch.load(values);
            return;
        }
        const scene = sceneOf(named);
        if (named !== "" && !scene) throw new Error(`there is no scene "${named}"`);
        const settings = decodeSettings(parts.length > 0 || !scene ? parts.join("&") : scene.code);
        this.showSwitch(false);
        this.begin(named, settings);
        this.save();
    }

    showSwitch(yes) {
        if (yes) this.pause();
        this.body.hidden = this.buttons.hidden = this.wrong.hidden = this.coming.hidden = yes;
        this.switch.element.hidden = !yes;
        if (!yes) return;
        [this.scenes.value, this.text.textContent, this.changed.textContent] = ["switch", SwitchView.text, ""];
    }

    get fields() { return [this.controls, ...this.connections].flatMap(({ fields }) => fields); }

    /* Starts settings at time 0. */
    begin(name, settings) {
        this.pause();
        this.scene = name;
        this.settings = settings;
        this.scenes.value = name;
        this.text.textContent = sceneOf(name)?.text ?? "Settings from an address.";
        const { span } = settings.network, speeds = SPEEDS.map(([speed]) => speed);
        this.speeds.value = String(speeds.filter((speed) => speed <= Math.max(1, span / 4)).pop());
        this.restart();
    }

    /* Runs the settings from the start; boxes that were refused show the values of the run again. */
    restart() {
        this.fields.forEach((field) => field.forget());
        this.settle();
        this.again();
    }

    again() {
        this.network = new Network(this.engine, this.tables, this.settings);
        this.samples = new Samples(this.settings.network.span);
        this.spent = this.nextDragged = 0;
        this.draw();
    }

    /* The values as they are now become those of the start. What is still to come comes as much later as now. */
    fromValues() {
        if (this.fields.some(({ wrong }) => wrong)) {
            this.settle("Not restarted, since a box is wrong: put it right, or press Restart. ");
            return;
        }
        const { network } = this, connections = network.connections.map(({ values }) => ({ ...values }));
        const now = Math.floor(network.now / 1000);
        const changes = network.changes.map((each) => ({ ...each, time: Math.max(0, each.time - now) }));
        this.settings = { network: { ...network.values }, connections, changes };
        this.save();
        this.again();
    }

    /* Puts the settings into the address; a scene as it was made needs only its name. */
    save() {
        const code = encodeSettings(this.settings), scene = sceneOf(this.scene);
        const made = scene && encodeSettings(decodeSettings(scene.code)) === code;
        this.changed.textContent = scene && !made ? "(changed)" : "";
        this.keep(made ? `scene=${this.scene}` : `scene=${this.scene}&${code}`);
    }

    /* Puts a query into the address, which is right then. */
    keep(query) {
        this.query = query;
        this.message.textContent = "";
        setAddress("link", query);
    }

    /* After a box was changed: those that were refused and are right now come into force, the others are named. */
    settle(first = "") {
        let again = true;
        while (again) again = this.fields.some((field) => field.retry());
        const wrong = this.fields.filter((field) => field.wrong).map(({ called }) => called);
        const text = wrong.length === 0 ? "" : `${first}Not in force, and marked below: ${wrong.join("; ")}.`;
        if (this.wrong.textContent !== text) this.wrong.textContent = text;
    }

    /* Sets a value: at the start for the whole scene, later from the next slot on. Answers what is wrong, or null. In a
     * link that runs a slider that is dragged is read DRAGS times in the time shown. */
    change(number, name, value, dragged = false) {
        if (name === "span") return this.changeSpan(value);
        if (this.inForce(number, name, value)) return null;
        if (this.network.slots === 0 && name !== "er") return this.changeStart(number, name, value);
        if (dragged && this.running && this.network.now < this.nextDragged) return null;
        this.nextDragged = this.network.now + this.samples.span / DRAGS;
        return this.changeNow(number, name, value);
    }

    /* Whether a value holds, or will with the next slot. */
    inForce(number, name, value) {
        const { network } = this, values = number === 0 ? network.values : network.connections[number - 1].values;
        const next = network.changes.findLast((each) => each.time * 1000 <= network.now
            && each.connection === number && each.name === name);
        return name !== "er" && (next?.value ?? values[name]) === value;
    }

    changeStart(number, name, value) {
        const { connections, changes } = this.settings, network = { ...this.settings.network };
        const settings = { network, connections: connections.map((values) => ({ ...values })), changes };
        (number === 0 ? network : settings.connections[number - 1])[name] = value;
        const wrong = settingsError(settings);
        if (wrong) return wrong;
        this.settings = settings;
        this.save();
        this.again();
        return null;
    }

    /* Of a value of the network that changes twice before a slot only the last is kept. */
    changeNow(number, name, value) {
        const { network, settings } = this, time = Math.floor(network.now / 1000);
        const change = { time, connection: number, name, value };
        const before = (each) => each.time < time
            || (each.time === time && (number > 0 || each.connection > 0 || each.name !== name));
        const withIt = (changes) => [...changes.filter(before), change, ...changes.filter((each) => each.time > time)];
        const changes = withIt(settings.changes), wrong = settingsError({ ...settings, changes });
        if (changes.length > CHANGES) return `no more than ${CHANGES} changes: begin again from these values`;
        if (wrong) return wrong;
        settings.changes = changes;
        network.changes = withIt(network.changes);
        if (!this.running) network.applyChanges();
        this.save();
        this.draw();
        return null;
    }

    /* How much time is shown does not touch the network; what was drawn is given up. */
    changeSpan(value) {
        this.settings.network.span = this.network.values.span = value;
        this.samples = new Samples(value);
        this.samples.next = this.network.now;
        this.save();
        this.draw();
        return null;
    }

    toggle() {
        if (this.running) this.pause();
        else this.run();
    }

    run() {
        this.running = true;
        this.runButton.textContent = "Pause";
        this.before = null;
        requestAnimationFrame((time) => this.frame(time));
    }

    pause() {
        if (!this.running) return;
        this.running = false;
        this.runButton.textContent = "Run";
        this.draw();
    }

    step(slots) {
        this.pause();
        for (let slot = 0; slot < slots; slot++) this.slot();
        this.draw();
    }

    slot() {
        this.network.slot();
        this.samples.see(this.network);
    }

    /* As many slots as the time since the last frame asks for, or as there is time for. */
    frame(time) {
        if (!this.running) return;
        const real = Math.min(50, this.before === null ? 16 : time - this.before);
        const until = performance.now() + FRAME_WORK;
        this.before = time;
        this.spent += real * 1000 * Number(this.speeds.value);
        while (this.spent >= this.network.slotTime && performance.now() < until) {
            this.spent -= this.network.slotTime;
            this.slot();
        }
        if (performance.now() >= until) this.spent = 0;
        this.draw();
        requestAnimationFrame((next) => this.frame(next));
    }

    draw() {
        if (!this.switch.element.hidden) this.switch.draw();
        if (this.body.closest("[hidden]")) return;
        const time = this.network.now / 1e6, digits = { minimumFractionDigits: 2, maximumFractionDigits: 2 };
        this.clock.textContent = `${time.toLocaleString("en", digits)} ms`;
        this.drawing.draw(this.network, this.samples);
        this.controls.show(this.network);
        this.connections.forEach((each) => each.show(this.network));
        this.showComing();
    }

    /* The changes that the settings have for later. */
    showComing() {
        const { changes } = this.network, more = changes.length - COMING;
        const listed = changes.slice(0, COMING).map(changeText).join("; ");
        const text = listed === "" ? "" : `Still to come: ${listed}${more > 0 ? `; and ${more} more` : ""}.`;
        if (this.coming.textContent !== text) this.coming.textContent = text;
    }
}

function linkTab(root, engine) {
    return new LinkTab(root, engine);
}
