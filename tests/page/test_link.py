"""The Link tab: every scene, and settings at random, have the numbers of the same scene through the C library; what is
changed while it runs is in the address; the switch of source document 003 and the paper's three observations."""

import json
import random

from browser import Failure
from support import PAGE, ROOT, expect, hold, program, run
from test_page import LEGIBLE

NAMES = ["two", "leased", "loop", "zero", "marks", "path"]
STEPS = 20
SWITCH_SLOTS = 20_000
OBSERVED_SLOTS = 200_000

# The numbers of settings at equal steps up to a time, as scene.c prints them.
NUMBERS = """((code, milliseconds, steps) => {
    const network = new Network(loaded.link.engine, loaded.link.tables, decodeSettings(code)), lines = [];
    for (let step = 1; step <= steps; step++) {
        network.runTo(Math.floor(milliseconds * 1e6 / steps) * step);
        lines.push(network.numbers().join("|"));
    }
    return lines;
})"""
# What each slot sends, as the example of two connections prints it.
SLOTS = """((code, milliseconds) => {
    const network = new Network(loaded.link.engine, loaded.link.tables, decodeSettings(code)), lines = [];
    const slot = network.account.bind(network);
    network.account = (sent) => {
        const kind = ["idle", "forward", "turned", "data"][sent.kind];
        const time = (network.now / 1e6).toFixed(2).padStart(5);
        const name = `${String(sent.vpi).padStart(3)}/${String(sent.vci).padEnd(5)}${kind.padEnd(7)}`;
        lines.push(`${time} ms  ${name}  ${String(sent.acr / 512n).padStart(7)}`);
        slot(sent);
    };
    network.runTo(milliseconds * 1e6);
    return lines;
})"""

# Sets a field of the page by its id, as a hand does, and answers the messages.
SET = """((id, value, event = "change") => {
    const input = document.getElementById(id);
    input[input.type === "checkbox" ? "checked" : "value"] = value;
    input.dispatchEvent(new Event(event));
    return MESSAGES;
})""".replace("MESSAGES", """[...document.querySelectorAll("#link [role=alert]")]
        .map(({ textContent }) => textContent).filter((text) => text !== "").join("|")""")
# What is wrong at a box, and whether its border is red.
WRONG = """((id) => {
    const input = document.getElementById(id), style = getComputedStyle(document.body).getPropertyValue("--bad").trim();
    const red = [1, 3, 5].map((from) => parseInt(style.slice(from, from + 2), 16)).join(", ");
    const said = document.getElementById(`${id}-wrong`)?.textContent ?? "";
    return [getComputedStyle(input).borderColor === `rgb(${red})`, said, input.value];
})"""
# Presses a button of the link by its text.
PRESS = """((text) => [...document.querySelectorAll("#link button")]
    .find(({ textContent }) => textContent === text).click())"""
CODE = "location.hash.split('&').slice(1).join('&')"
# The colours in one of the drawings: how many, and which of the page's own.
SEEN = """((at) => {
    const canvas = document.querySelectorAll("#link canvas")[at], colours = new Set();
    const { data } = canvas.getContext("2d").getImageData(0, 0, canvas.width, canvas.height);
    for (let place = 0; place < data.length; place += 4) colours.add(data.slice(place, place + 3).join(" "));
    const style = getComputedStyle(document.body), hex = (name) => style.getPropertyValue(name).trim().slice(1);
    const rgb = (name) => [0, 2, 4].map((from) => parseInt(hex(name).slice(from, from + 2), 16)).join(" ");
    const connections = [0, 1, 2, 3].map((which) => colours.has(rgb(`--c${which}`)));
    return { many: colours.size, connections, bad: colours.has(rgb("--bad")) };
})"""


def called(browser, function, *words):
    """What a function of the page answers."""
    return browser.evaluate(f"{function}({', '.join(json.dumps(word) for word in words)})")


def in_c(code, milliseconds, steps=STEPS):
    return run(program("scene.c"), code, str(milliseconds), str(steps)).splitlines()


def scenes(browser):
    return browser.evaluate("SCENES.map(({ name, until, code }) => ({ name, until, code }))")


def same(browser, code, milliseconds):
    """The numbers of settings on the page, which are those of the C library."""
    numbers = called(browser, NUMBERS, code, milliseconds, STEPS)
    wanted = in_c(code, milliseconds)
    for found, line in zip(numbers, wanted):
        expect(found, line, code)
        for each in line.split("|")[1:]:
            _, forward, turned, data, _, delivered, _, _, _, arrived, _ = (int(number) for number in each.split())
            hold(delivered <= data and arrived <= forward + turned + data, f"more delivered than sent: {each}, {code}")
    expect(len(numbers), len(wanted), "steps")
    return numbers


def scene(name):
    def test(browser):
        browser.open(PAGE, "link")
        each = next(each for each in scenes(browser) if each["name"] == name)
        numbers = same(browser, each["code"], each["until"])
        hold(len(set(numbers)) == STEPS, "every step is another")
        changed = in_c(each["code"] + "&line=9999", each["until"])
        hold(changed[-1] != numbers[-1], "another line gives other numbers")
    return test


def all_scenes(browser):
    browser.open(PAGE, "link")
    expect([each["name"] for each in scenes(browser)], NAMES, "the scenes that are compared")


def as_the_example(browser):
    """Each slot of the example, on the page and in C; the scene goes on a little longer."""
    browser.open(PAGE, "link")
    two = scenes(browser)[0]
    example = [line for line in (ROOT / "examples/two_connections.out").read_text().splitlines() if " ms " in line]
    hold(len(example) == 57, f"{len(example)} slots in the example")
    expect(called(browser, SLOTS, two["code"], two["until"])[:len(example)], example, "the page")
    expect(in_c(two["code"], two["until"], 0)[:len(example)], example, "scene.c")


def contract(dice, number):
    """A connection at random, with rates in order."""
    mcr, icr, pcr = sorted(dice.choice([0, 1, 100, 999, 2500, dice.randrange(5000)]) for _ in range(3))
    values = {"open": dice.randrange(2), "pcr": max(1, pcr), "mcr": mcr, "icr": icr, "data": dice.randrange(4),
              "members": dice.choice([0, 0, 1, 5]), "burst": dice.randrange(1, 300), "every": dice.randrange(1, 60),
              "rate": dice.randrange(1, 3000), "zero": int(dice.random() < 0.1), "n": dice.randrange(1, 9),
              "r": dice.randrange(16), "d": dice.randrange(16), "c": dice.randrange(8), "frtt": dice.choice([0, 5000]),
              "tbe": dice.choice([1, 64, 16777215]), "adtf": dice.randrange(1, 60), "trm": dice.randrange(8)}
    return [f"{number}.{name}={value}" for name, value in values.items()]


def at_random(seed):
    """The code of settings at random, with changes."""
    dice = random.Random(seed)
    network = {"line": dice.choice([997, 10000, 44444]), "lag": dice.randrange(9), "cdvt": dice.randrange(9),
               "trip": dice.choice([0, 3, 9999, 50000]), "port": dice.randrange(500, 12000),
               "buffer": dice.choice([1, 20, 1000]), "share": dice.choice([0, 80, 100]),
               "efci": dice.choice([0, 1, 30]), "level": dice.choice([0, 0, 1, 2]),
               "loss": dice.choice([0, 0, 10, 400, 1000]), "seed": dice.randrange(1, 2 ** 32)}
    parts = [f"{name}={value}" for name, value in network.items()]
    for number in range(1, 9):
        parts += contract(dice, number)
    of_network = ["line=5000", "lag=0", "lag=7", "trip=100", "trip=30000", "port=700", "port=9000", "share=0",
                  "share=90", "efci=5", "level=2", "level=0", "loss=500", "loss=0", "seed=7", "buffer=3", "cdvt=1"]
    of_one = ["open=0", "open=1", "zero=1", "zero=0", "data=1", "data=2", "data=3", "members=0", "members=3", "er=700",
              "er=0", "n=2", "tbe=32", "burst=9", "every=5", "rate=77"]
    for time in sorted(dice.randrange(250_000) for _ in range(20)):
        number = dice.randrange(9)
        parts.append(f"{time}!{dice.choice(of_network)}" if number == 0 else f"{time}!{number}.{dice.choice(of_one)}")
    return "&".join(parts)


def random_settings(browser):
    browser.open(PAGE, "link")
    for seed in range(100):
        code = at_random(seed)
        coded = called(browser, "((code) => encodeSettings(decodeSettings(code)))", code)
        expect(in_c(coded, 300), in_c(code, 300), "what the page codes is what was given")
        same(browser, code, 300)


def lag_and_policer(browser):
    """A lag of 0 costs a leased circuit a tenth and more; a policer that grants the lag drops nothing, another does."""
    browser.open(PAGE, "link")
    leased = next(each for each in scenes(browser) if each["name"] == "leased")
    numbers = {}
    for lag, cdvt in [(4, 4), (0, 0), (4, 0), (8, 8)]:
        last = same(browser, f"{leased['code']}&lag={lag}&cdvt={cdvt}", 600)[-1].split("|")[1].split()
        forward, turned, data, promised, dropped = (int(last[place]) for place in (1, 2, 3, 6, 7))
        numbers[lag, cdvt] = (forward + turned + data - promised, dropped)
    hold(numbers[4, 4][0] >= 0 and numbers[8, 8][0] >= 0, f"the minimum is there: {numbers}")
    hold(numbers[0, 0][0] < -144, f"a tenth of 1,440 is missing: {numbers}")
    granted = [numbers[each][1] for each in [(4, 4), (0, 0), (8, 8)]]
    expect(granted, [0, 0, 0], "dropped by a policer that grants the lag")
    hold(numbers[4, 0][1] > 0, f"a policer without tolerance: {numbers}")


def policer(browser):
    """Cases of I.371 that are counted by hand, as in tests/differential/src/policer.rs."""
    browser.open(PAGE, "link")
    conforming = """((cells, tolerance) => { const policer = new Policer();
        return cells.map(([time, gap]) => policer.arrives(time, gap, tolerance)); })"""
    for times, tolerance, wanted in [([5, 15, 25, 36, 46], 0, "11111"), ([5, 14, 15, 24, 26, 35, 36], 0, "1010101"),
                                     ([0, 6, 7, 16, 17, 50, 56, 57], 3, "10101101"), ([0, 1, 2, 3, 4], 25, "11100")]:
        found = called(browser, conforming, [[time, 10] for time in times], tolerance)
        expect("".join(str(int(each)) for each in found), wanted, f"{times}, tolerance {tolerance}")
    found = called(browser, conforming, [[0, 10], [9, 10], [9, 9], [18, 20], [29, 20]], 0)
    expect(found, [True, False, True, False, True], "the increment is that in force at the cell")


def changed_while_it_runs(browser):
    """Values set by hand, at the start and later, are in the address; what it loads has the same numbers, in C too."""
    browser.open(PAGE, "link?scene=marks")
    expect(called(browser, SET, "link-0-port", 4000), "", "message")
    browser.evaluate("loaded.link.step(1234)")
    for field, value in [("link-0-lag", 0), ("link-2-pcr", 5000), ("link-4-open", True), ("link-3-zero", True)]:
        expect(called(browser, SET, field, value), "", "message")
    browser.evaluate("loaded.link.step(700)")
    browser.evaluate("document.querySelector('#link .connection .once button').click()")
    browser.evaluate("loaded.link.step(66)")
    numbers, address = browser.evaluate("[loaded.link.network.numbers().join('|'), location.hash.slice(1)]")
    code = address.split("&", 1)[1]
    hold("port=4000" in code and "123400!lag=0" in code and "193400!1.er=500" in code, code)
    expect(in_c(code, 200, 1), [numbers], "the address in C")
    browser.open(PAGE, address)
    browser.evaluate("loaded.link.step(2000)")
    expect(browser.evaluate("loaded.link.network.numbers().join('|')"), numbers, "the address on the page")
    said = called(browser, SET, "link-2-mcr", 6000)
    hold("MCR" in said, f"no message: {said}")
    expect(browser.evaluate("loaded.link.network.numbers().join('|')"), numbers, "after what is refused")


def every_value(browser):
    """Each value that there is, set by hand while the link runs."""
    browser.open(PAGE, "link?scene=path")
    values = {"0": {"lag": 1, "cdvt": 2, "share": 80, "loss": 50, "line": 8000, "port": 3000, "trip": 4000,
                    "buffer": 40, "efci": 10, "level": 1, "seed": 9, "span": 300},
              "2": {"pcr": 3000, "mcr": 50, "icr": 800, "n": 4, "r": 5, "d": 3, "c": 5, "tbe": 64, "frtt": 3000,
                    "adtf": 20, "trm": 3, "members": 3, "burst": 30, "every": 7, "data": 3, "rate": 900, "zero": True,
                    "open": False},
              "5": {"open": True, "data": 0}}
    fields = browser.evaluate("[Object.keys(NETWORK_FIELDS), Object.keys(CONNECTION_FIELDS)]")
    expect([sorted(each) for each in fields], [sorted(values[number]) for number in "02"], "the values that there are")
    browser.evaluate("loaded.link.step(100)")
    for number, named in values.items():
        for name, value in named.items():
            before = browser.evaluate("encodeSettings(loaded.link.settings)")
            expect(called(browser, SET, f"link-{number}-{name}", value), "", f"message of {name}")
            hold(browser.evaluate("encodeSettings(loaded.link.settings)") != before, f"{name} is not in the address")
            browser.evaluate("loaded.link.step(61)")
    numbers = browser.evaluate("(loaded.link.network.runTo(400e6), loaded.link.network.numbers().join('|'))")
    code = browser.evaluate("location.hash").split("&", 1)[1]
    expect(in_c(code, 400, 1), [numbers], "the address in C")


def buttons(browser):
    """Run, pause and step, by keys."""
    browser.open(PAGE, "link?scene=leased")
    now = "loaded.link.network.now"
    browser.evaluate("loaded.link.runButton.focus()")
    browser.keys("Enter")
    browser.wait(f"{now} > 20e6", 20)
    expect(browser.evaluate("loaded.link.runButton.textContent"), "Pause", "the button")
    browser.keys("Enter")
    stands = browser.evaluate(now)
    browser.evaluate("new Promise((resolve) => { setTimeout(resolve, 150); })")
    expect(browser.evaluate(now), stands, "time while it is paused")
    browser.keys("Tab", "Enter")
    expect(browser.evaluate(now), stands + 100_000, "after a step")
    browser.keys("Tab", "Enter")
    expect(browser.evaluate(now), 0, "after a restart")
    slots = browser.evaluate("(loaded.link.step(3000), loaded.link.network.numbers().join('|'))")
    expect(slots, in_c(scenes(browser)[1]["code"], 300, 1)[0], "as if it had run at once")


def other_tab(browser):
    """Who looks at another tab finds the link as it was, address and all."""
    browser.open(PAGE, "link?scene=zero")
    expect(called(browser, SET, "link-0-lag", 1), "", "message")
    browser.evaluate("loaded.link.step(50)")
    address, numbers = browser.evaluate("[location.hash, loaded.link.network.numbers().join('|')]")
    for tab in ["card", "link"]:
        browser.evaluate(f"document.getElementById('tab-{tab}').click()")
        browser.wait(f"!document.getElementById('{tab}').hidden", 5)
    found = browser.evaluate("[location.hash, loaded.link.network.numbers().join('|')]")
    expect(found, [address, numbers], "after another tab")


def bad_addresses(browser):
    for bad in ["scene=two&line", "scene=two&line=0", "scene=two&colour=1", "scene=two&1.mcr=9000", "line=1e3",
                "9.pcr=1", "scene=two&5!1.icr=9000", "scene=two&1.er=5", "scene=nothing&-1", "%00<b>"]:
        browser.open(PAGE, "link?scene=path")
        browser.evaluate(f"location.hash = {json.dumps('link?' + bad)}")
        browser.wait("loaded.link.message.textContent.startsWith('The address cannot be read: ')", 5)
        expect(browser.evaluate("loaded.link.scene"), "path", f"the scene that was there, after {bad}")
        hold(browser.evaluate("loaded.link.network.connections[0].values.members === 4"), bad)


def copied(browser):
    """What Copy address copies."""
    return browser.evaluate("""new Promise((resolve) => {
        navigator.clipboard.writeText = async (text) => resolve(text);
        PRESS("Copy address");
    })""".replace("PRESS", PRESS))


def wrong_addresses(browser):
    """What an address names that there is not is said, and what was there stays."""
    for bad, said in [("scene=nope", 'no scene "nope"'), ("scene=switch&colour=1", '"colour=1" names no setting'),
                      ("scene=switch&below=9", '"below=9": one of 1, 2, 3, 4'), ("colour=1", '"colour=1" names no')]:
        for start in ["scene=path", bad]:
            browser.open(PAGE, f"link?{start}")
            browser.evaluate(f"location.hash = {json.dumps('link?' + bad)}")
            browser.wait(f"loaded.link.message.textContent.includes({json.dumps(said)})", 5)
            hold(browser.evaluate("loaded.link.message.checkVisibility()"), "the message is seen")
            there = "path" if start != bad else "two"
            expect(browser.evaluate("loaded.link.scene"), there, f"the scene after {bad}")
            expect(copied(browser).split("#")[1], f"link?scene={there}", "what Copy address copies")
    for bad in ["foo", "toString"]:
        browser.open(PAGE, bad)
        said = browser.evaluate("document.querySelector('header [role=alert]')?.textContent")
        hold(said and f"#{bad}" in said, f"{bad}: {said}")
        browser.evaluate("location.hash = 'link?scene=path'")
        browser.wait("document.querySelector('header [role=alert]').textContent === ''", 5)


def chosen_in_address(browser):
    """Every scene that is chosen is in the address at once, and what is set of the switch too."""
    browser.open(PAGE, "link?scene=path")
    for name in ["switch", *NAMES, "switch"]:
        called(browser, SET, "link-scene", name)
        expect(browser.evaluate("location.hash"), f"#link?scene={name}", "the address")
    expect(copied(browser).split("#")[1], "link?scene=switch", "what Copy address copies")
    called(browser, SET, "switch-capacity", 7)
    for tab in ["card", "link"]:
        browser.evaluate(f"document.getElementById('tab-{tab}').click()")
        browser.wait(f"!document.getElementById('{tab}').hidden", 5)
    expect(browser.evaluate("location.hash"), "#link?scene=switch&capacity=7", "the address after another tab")
    expect(browser.evaluate("document.getElementById('switch-capacity').value"), "7", "the box")


def wrong_boxes(browser):
    """A box with a wrong value is red and says so until it is put right, whatever other boxes do."""
    browser.open(PAGE, "link?scene=leased")
    browser.evaluate("loaded.link.step(10)")
    called(browser, SET, "link-0-port", "")
    said = called(browser, SET, "link-0-buffer", 900)
    hold("Port" in said, f"Port is empty: {said}")
    for seen in (True, False):
        red, words, _ = called(browser, WRONG, "link-0-port")
        expect([red, "Port" in words], [seen, seen], "a red border, and a message at the box")
        called(browser, SET, "link-0-port", 9900)
    said = called(browser, SET, "link-2-mcr", 9000)
    hold("connection 2" in said and "ICR 1,000" in said, f"it says which and why: {said}")
    called(browser, SET, "link-2-icr", 9000)
    expect(browser.evaluate("loaded.link.network.connections[1].values.mcr"), 100, "MCR in force")
    expect(called(browser, SET, "link-2-pcr", 9000), "", "with this PCR all are right")
    values = browser.evaluate("['mcr', 'icr', 'pcr'].map((name) => loaded.link.network.connections[1].values[name])")
    expect(values, [9000, 9000, 9000], "what has become right is in force")
    expect(called(browser, WRONG, "link-2-mcr")[0], False, "a red border")


def restarts(browser):
    """Neither restart leaves a box that shows what is not in force."""
    browser.open(PAGE, "link?scene=leased")
    browser.evaluate("loaded.link.step(10)")
    called(browser, SET, "link-3-burst", "")
    called(browser, PRESS, "Restart from these values")
    expect(browser.evaluate("loaded.link.network.slots"), 10, "slots after a restart that a wrong box forbids")
    said = browser.evaluate("document.getElementById('link').innerText")
    hold("Not restarted" in said and "connection 3, Burst" in said, "it says why")
    called(browser, PRESS, "Restart")
    expect(browser.evaluate("loaded.link.network.slots"), 0, "slots after a restart")
    expect(called(browser, WRONG, "link-3-burst"), [False, "", "100"], "the box")
    hold("Not restarted" not in browser.evaluate("document.getElementById('link').innerText"), "the message is gone")


def openings(browser):
    """Cells of the opening before, which are under way when a contract changes, do not count."""
    code = "trip=150000&1.open=1&2.open=1&2.members=3&100000!1.pcr=3000&140000!2.open=0&150000!2.open=1&200000!1.n=4"
    browser.open(PAGE, "link")
    numbers = same(browser, code, 400)
    hold(any(line.split("|")[1].split()[5] == "0" for line in numbers[6:]), "none is delivered after the change")


def delivered(browser):
    """Minimums that the port has not: sent they are, delivered not, and both are said."""
    browser.open(PAGE, "link?scene=leased")
    text = "document.getElementById('link').innerText"
    hold("more than the port has" not in browser.evaluate(text), "a warning of minimums that there is room for")
    expect(browser.evaluate("document.querySelectorAll('#link .wrong').length"), 0, "red numbers")
    called(browser, SET, "link-0-port", 2000)
    called(browser, SET, "link-0-buffer", 20)
    browser.evaluate("loaded.link.step(3000)")
    hold("The minimums together, 2,700 cells/s, are more than the port has" in browser.evaluate(text), "the warning")
    red = browser.evaluate("[...document.querySelectorAll('#link .wrong')].map(({ textContent }) => textContent)")
    full, missing = browser.evaluate("""[loaded.link.network.port.full, ((it) => [loaded.link.network.due(it),
        it.arrived, loaded.link.network.missing(it)])(loaded.link.network.connections[0])]""")
    hold(full > 0 and f"lost to a full buffer {full:,}" in red, f"{full} lost: {red}")
    hold(missing[0] > missing[1] and missing[2] == 0, f"all are sent, not all delivered: {missing}")
    hold(f"{missing[1]:,} of {missing[0]:,}" in red, f"delivered, in red: {red}")
    drawn = browser.evaluate("Math.max(...loaded.link.samples.missing[0])")
    hold(missing[0] - missing[1] - 2 <= drawn, f"drawn are {drawn}")


def sliders(browser):
    """A slider acts while it is dragged; what the address has of it gives the same slots."""
    browser.open(PAGE, "link?scene=leased")
    browser.evaluate("loaded.link.step(1000)")
    for lag in [3, 2, 1, 0]:
        called(browser, SET, "link-0-lag", lag, "input")
        expect(browser.evaluate("loaded.link.network.values.lag"), lag, "the lag in force")
    called(browser, SET, "link-0-lag", 0)
    expect(browser.evaluate(CODE).count("lag="), 1, f"entries of the lag in {browser.evaluate(CODE)}")
    browser.evaluate("loaded.link.run()")
    for loss in range(1, 200, 5):
        called(browser, SET, "link-0-loss", loss, "input")
        browser.evaluate("new Promise((resolve) => { requestAnimationFrame(resolve); })")
    called(browser, SET, "link-0-loss", 200)
    browser.evaluate("loaded.link.pause()")
    expect(browser.evaluate("loaded.link.network.values.loss"), 200, "the loss in force once it is paused")
    browser.evaluate("loaded.link.step(1000)")
    code, now, numbers = browser.evaluate(f"[{CODE}, loaded.link.network.now, loaded.link.network.numbers().join('|')]")
    taken = [int(each.split("!")[0]) for each in code.split("&") if "!loss=" in each]
    hold(taken and len(taken) <= 3 + (taken[-1] - 100_000) // 30_000 and code.endswith("loss=200"), code)
    called(browser, PRESS, "Restart")
    browser.evaluate(f"loaded.link.network.runTo({now})")
    expect(browser.evaluate("loaded.link.network.numbers().join('|')"), numbers, "the same once more")
    expect(in_c(code, now // 1_000_000, 1), called(browser, NUMBERS, code, now // 1_000_000, 1), "in C")


def changed_and_coming(browser):
    """The name of a scene says that it was changed; what is still to come is listed, and kept by a restart."""
    browser.open(PAGE, "link?scene=zero")
    name = """((select) => `${select.selectedOptions[0].textContent} ${select.nextSibling.textContent}`.trim())(
        document.getElementById("link-scene"))"""
    coming = "document.querySelector('#link .coming')?.textContent"
    expect(browser.evaluate(name), "A rate of 0 that comes back", "the name")
    said = browser.evaluate(coming)
    hold(said and "at 100 ms connection 1, Explicit rate of 0: yes" in said and "330 ms" in said, f"to come: {said}")
    browser.evaluate("loaded.link.step(2000)")
    hold("at 100 ms" not in browser.evaluate(coming), "what has come is not listed")
    called(browser, SET, "link-0-lag", 5)
    expect(browser.evaluate(name), "A rate of 0 that comes back (changed)", "the name")
    called(browser, PRESS, "Restart from these values")
    hold("at 130 ms connection 1, Explicit rate of 0: no" in browser.evaluate(coming), browser.evaluate(coming))
    hold("1.zero=1" in browser.evaluate(CODE) and "130000!1.zero=0" in browser.evaluate(CODE), browser.evaluate(CODE))
    called(browser, SET, "link-scene", "two")
    expect(browser.evaluate(name), "Two connections", "the name of another scene")


def leased_as_told(browser):
    """What the leased scene's text tells to do, in its order: lag 0, lag 4, tolerance 0."""
    browser.open(PAGE, "link?scene=leased")
    text = browser.evaluate("loaded.link.text.textContent")
    hold(0 < text.find("lag to 0") < text.find("lag back to 4") < text.find("tolerance below it, to 0"), text)
    numbers = "((it) => [loaded.link.network.missing(it), it.policer.dropped])(loaded.link.network.connections[0])"
    found = []
    for name, value in [("lag", 0), ("lag", 4), ("cdvt", 0)]:
        browser.evaluate("loaded.link.step(3000)")
        found.append(browser.evaluate(numbers))
        called(browser, SET, f"link-0-{name}", value)
    browser.evaluate("loaded.link.step(3000)")
    hold(found[0] == [0, 0] and found[1][0] > 72 and found[2][1] == 0, f"{found}")
    hold(browser.evaluate(numbers)[1] > 0, "a policer without tolerance drops cells")


# The numbers of lines among the rates as they are drawn: each with its place, and how far it is from its line.
NUMBERS_DRAWN = """(() => {
    const chart = loaded.link.drawing.charts[0], { samples } = loaded.link, drawn = [];
    const { fillText } = chart.context;
    chart.context.fillText = (text, x, y) => chart.context.font.includes("600") && drawn.push([Number(text), x, y]);
    loaded.link.draw();
    chart.context.fillText = fillText;
    return drawn.map(([number, x, y]) => {
        let least = Infinity;
        samples.each(samples.acr[number - 1], (time, value) => {
            if (Math.abs(chart.x(time) - x) <= 8) least = Math.min(least, Math.abs(chart.y(value) - y));
        });
        return [number, x, y, least];
    });
})()"""


def looks(browser):
    """Numbers stand at their lines and not on each other; a bar where minimum is peak; no share without a limit."""
    browser.device(1280)
    browser.open(PAGE, "link?scene=loop")
    for _ in range(12):
        browser.evaluate("loaded.link.step(4000)")
        found = browser.evaluate(NUMBERS_DRAWN)
        hold(len(found) > 3 and all(far <= 3 for _, _, _, far in found), f"numbers far from their lines: {found}")
        close = [(one, other) for one in found for other in found if one[0] < other[0]
                 and abs(one[1] - other[1]) < 8 and abs(one[2] - other[2]) < 8]
        expect(close, [], "numbers on each other")
    browser.open(PAGE, "link?scene=leased&" + scenes_code("leased", browser) + "&2.open=0&3.open=0&4.open=0")
    browser.evaluate("loaded.link.step(3000)")
    shares = browser.evaluate("loaded.link.samples.share.filter((each) => each > 2500).length")
    expect(shares, 0, "shares above every peak, which leave the plot")
    tall = browser.evaluate("""(({ canvas, right }) => {
        const { data } = canvas.getContext("2d").getImageData(right + 12, 0, 1, 120);
        return data.filter((part, place) => place % 4 === 3 && part > 0).length;
    })(loaded.link.drawing.charts[0])""")
    hold(tall >= 8, f"the bar of a contract without room is {tall} pixels")
    caption = browser.evaluate("loaded.link.drawing.charts[0].figure.textContent")
    hold("bar from minimum to peak" in caption and "tick at the rate now" in caption, caption)


def is_drawn(browser):
    """Each drawing has pixels of what it draws: every connection's colour among the rates, others elsewhere."""
    for dark in (False, True):
        browser.device(1280, dark=dark)
        browser.open(PAGE, "link?scene=leased&" + scenes_code("leased", browser) + "&cdvt=0")
        blank = called(browser, SEEN, 0)["many"]
        browser.evaluate("loaded.link.step(4000)")
        rates, row, way = (called(browser, SEEN, place) for place in (2, 0, 1))
        hold(all(rates["connections"]), f"rates: {rates}")
        hold(all(way["connections"]), f"cells under way: {way}")
        hold(row["bad"] and row["many"] > blank, f"a cell that the policer would drop is marked: {row}")
        hold(called(browser, SEEN, 4)["many"] > 3, "the queue")


def scenes_code(name, browser):
    if not browser.evaluate("typeof SCENES === 'object'"):
        raise Failure("no scenes")
    return browser.evaluate(f"sceneOf({json.dumps(name)}).code")


def switch_open(browser):
    """The switch, with its runs, unless the page has it from the test before."""
    there = "typeof loaded === 'object' && location.hash === '#link?scene=switch' && loaded.link.switch.slots === 20000"
    browser.device(1280)
    if not browser.evaluate(there):
        browser.open(PAGE, "link?scene=switch")
    switch_ready(browser)


def switch(browser):
    """All runs of the switch as the page draws them, and the same in C."""
    switch_open(browser)
    found = browser.evaluate("""loaded.link.switch.results.map(({ counts }) =>
        [counts.sent, counts.lost, counts.data, counts.marks].join(" "))""")
    wanted = run(program("switch.c"), str(SWITCH_SLOTS)).splitlines()
    expect(found, wanted, "the runs")
    hold(len(wanted) == 90 and len(set(wanted)) > 40, f"{len(wanted)} runs")
    drawn = "document.querySelectorAll('#link .switch-pictures svg polyline').length"
    expect(browser.evaluate(drawn), 12, "lines drawn")


def switch_long(browser):
    """Runs of 200,000 slots, four of the ninety, as the page makes them; the address chooses them."""
    browser.open(PAGE, "link?scene=switch&long=1")
    browser.wait("document.querySelector('#link progress').value > 0")
    expect(browser.evaluate("document.getElementById('switch-long').value"), "1", "the box")
    browser.evaluate("loaded.link.switch.started++")
    wanted = run(program("switch.c"), str(OBSERVED_SLOTS)).splitlines()
    for which in (6, 37, 68, 89):
        found = browser.evaluate(f"""(() => {{
            const {{ engine, switch: view }} = loaded.link;
            const it = new SwitchRun(engine, view.tables, switchRuns({{ lower: 1, below: 2 }})[{which}]);
            it.run(SWITCH_SLOTS[1]);
            return [it.sent, it.lost, it.data, it.marks].join(" ");
        }})()""")
        expect(found, wanted[which], f"run {which}")


def points(lines):
    """Cells sent, lost and data a slot of each switch by buffer and traffic, out of the counts of its runs."""
    counts = [[int(word) for word in line.split()] for line in lines]
    found = {}
    for which, weights in enumerate([(4, 0, 0), (1, 2, 1), (0, 0, 4)]):
        for place, traffic in enumerate(range(50, 101, 10)):
            for buffer in range(5, 9):
                sums = [0, 0, 0]
                for services, weight in enumerate(weights):
                    at = 30 * services + 5 * place
                    sums = [total + weight * (counts[at][each] + counts[at + buffer - 4][each])
                            for each, total in enumerate(sums)]
                found[which, traffic, buffer] = sums
    return found


def said_of_runs(browser):
    """The sentences under the switch's pictures are true of what is drawn: where ABR sends less, and by how much."""
    switch_open(browser)
    text = browser.evaluate("document.querySelector('#link ol').innerText")
    found = points(run(program("switch.c"), str(SWITCH_SLOTS)).splitlines())
    for which, name in [(1, "both services"), (2, "ABR alone")]:
        behind = {}
        for (_, traffic, buffer), sums in ((at, sums) for at, sums in found.items() if at[0] == which):
            if sums[0] < found[0, traffic, buffer][0]:
                behind[traffic, buffer] = found[0, traffic, buffer][0] - sums[0]
        most = max(behind.values()) / (8 * (SWITCH_SLOTS - 2000))
        places = []
        for traffic in sorted({traffic for traffic, _ in behind}):
            buffers = [str(buffer) for at, buffer in behind if at == traffic]
            where = "all buffers" if len(buffers) == 4 else f"buffer {', '.join(buffers)}"
            places.append(f"{traffic} % ({where})")
        said = f"in cells a slot more is sent, except at {', '.join(places)}, by {most:.4f} at most"
        line = next(each for each in text.split("The switch with ABR")[1].splitlines() if each.startswith(name))
        hold(said in line, f"{said}\n{line}")


def switch_axes(browser):
    """No number of one axis touches a number of the other, or a mark."""
    switch_open(browser)
    touching = browser.evaluate("""[...document.querySelectorAll("#link .switch-pictures svg")].flatMap((svg) => {
        const box = (each) => each.getBoundingClientRect(), texts = [...svg.querySelectorAll("text")];
        const near = (one, other) => one.left < other.right + 3 && other.left < one.right + 3
            && one.top < other.bottom && other.top < one.bottom;
        return texts.flatMap((text, place) => [...texts.slice(place + 1), ...svg.querySelectorAll("circle, rect, path")]
            .filter((other) => near(box(text), box(other))).map((other) => `${text.textContent} ${other.outerHTML}`));
    })""")
    expect(touching, [], "what touches")


def observations(_):
    """The three observations of document 003's section 3.3, on the C library; the manual has the numbers. With too few
    slots they are not seen, and that is said."""
    said = run(program("switch.c"), str(OBSERVED_SLOTS), "observe")
    hold("NOT SO" not in said, said)
    rows, manual = said.splitlines(), (ROOT / "docs/MANUAL.md").read_text().splitlines()
    expect(len(rows), 12, "rows")
    expect([row for row in rows if row not in manual], [], "rows that the manual lacks")
    hold("NOT SO" in run(program("switch.c"), "2500", "observe"), "500 slots are enough")


def legible(address, prepare):
    """At both widths and in both colours."""
    def test(browser):
        browser.open(PAGE, f"link?scene={address}")
        prepare(browser)
        for width in (1280, 400):
            for dark in (False, True):
                browser.device(width, dark=dark)
                expect(browser.evaluate(LEGIBLE)["wrong"], [], f"what is not legible at {width}, dark {dark}")
    return test


def all_open(browser):
    browser.evaluate("""loaded.link.step(3000);
        document.querySelectorAll("#link details").forEach((each) => { each.open = true; })""")


def switch_ready(browser):
    """All runs are made: seconds, and minutes where others have the processor."""
    browser.wait("loaded.link.switch.results.length > 0", 300)


def picture(browser):
    """The leased circuit, whose lag becomes 0 on the way."""
    code = scenes_code("leased", browser)
    browser.evaluate(f"location.hash = 'link?scene=leased&{code}&300000!lag=0'")
    browser.wait("loaded.link.settings.changes.length === 1", 5)
    browser.evaluate("loaded.link.step(5600)")


TESTS = [
    *[(f"the scene {name} has the numbers of the C library", scene(name)) for name in NAMES],
    ("no other scene is on the page", all_scenes),
    ("two connections are the example's, slot by slot", as_the_example),
    ("settings at random have the numbers of the C library", random_settings),
    ("what a lag of 0 costs, and what a policer drops", lag_and_policer),
    ("the policer is that of I.371", policer),
    ("what is changed while it runs is in the address", changed_while_it_runs),
    ("every value can be changed while it runs", every_value),
    ("run, pause, step and restart by keys", buttons),
    ("another tab leaves the link as it is", other_tab),
    ("addresses that cannot be read", bad_addresses),
    ("addresses that name what there is not", wrong_addresses),
    ("a scene that is chosen is in the address", chosen_in_address),
    ("a wrong box is marked until it is put right", wrong_boxes),
    ("restarts leave no wrong box", restarts),
    ("cells count for the opening that sent them", openings),
    ("delivered cells beside the minimum", delivered),
    ("sliders act while they are dragged", sliders),
    ("a changed scene, and what is still to come", changed_and_coming),
    ("the leased circuit's text in its order", leased_as_told),
    ("numbers at their lines, bars and shares", looks),
    ("rates, queue, slots and cells under way are drawn", is_drawn),
    ("the switch has the numbers of the C library", switch),
    ("what is said of the switch's runs", said_of_runs),
    ("axes of the switch's pictures", switch_axes),
    ("the switch with 200,000 slots a run", switch_long),
    ("the three observations on the switch", observations),
    ("legible: eight connections with all their values", legible("loop", all_open)),
    ("legible: the switch", legible("switch", switch_ready)),
]
