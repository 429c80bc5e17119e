"""The Card tab: traces good, broken and refused, from texts and files, and one of 50 MB."""

import json
import os
import random
import time

from support import PAGE, ROOT, WORK, answers, expect, hold, run

UNITS, SECOND = 512, 512_000_000_000
FORWARD, BACKWARD, DATA = 1, 2, 3
LARGE = 50_000_000
# The most milliseconds for which the page may not answer; on a slow machine a quarter of the time of a judgement.
PAUSE = 200
# Keeps the longest that the page did not answer, and what it says of its progress.
WATCH = """(() => {
    globalThis.longest = 0;
    globalThis.said = new Set();
    new PerformanceObserver((list) => {
        longest = Math.max(longest, ...list.getEntries().map((task) => task.duration));
    }).observe({ type: "longtask" });
    const doing = document.querySelector("#card .doing");
    new MutationObserver(() => said.add(doing.innerText)).observe(doing, { subtree: true, childList: true });
})()"""

# Of each cell in the table its number, its gap and what is said of the forward rule.
ROWS = """[...document.querySelectorAll("#card tbody tr")].map((row) =>
    [0, 4, 5].map((column) => row.cells[column].textContent))"""
IN_VIEW = """(() => {
    const row = document.querySelector("#card tr.sought").getBoundingClientRect();
    const region = document.querySelector("#card .scroll").getBoundingClientRect();
    return row.top >= region.top && row.bottom <= region.bottom + 1;
})()"""


def octets(numbers):
    """A trace of these numbers."""
    row = bytearray()
    for number in numbers:
        while number > 127:
            row.append(number & 127 | 128)
            number >>= 7
        row.append(number)
    return bytes(row)


def text(numbers):
    """The same as a text: the head in a line, and each cell."""
    lines = [numbers[:2]] + [numbers[at:at + 3] for at in range(2, len(numbers), 3)]
    return "".join(" ".join(map(str, line)) + "\n" for line in lines)


def gap(rate):
    return -(-SECOND // rate)


def due(n, trm, k, since):
    """Why a forward cell is due, by the rules as the header has them."""
    if k == 2 ** n - 1:
        return "Nrm"
    return "Trm" if k >= 2 and since >= 100_000_000 >> (7 - trm) else "no"


def good(n, trm, cells, seed):
    """A trace that follows the rules, with rates and waits that differ."""
    dice, numbers, k, since = random.Random(seed), [n, trm], 0, 0
    for cell in range(cells):
        rate = dice.choice([50, 1000, 353_207]) * UNITS + dice.randrange(UNITS)
        passed = gap(rate) + dice.choice([0, 0, 1, 40_000_000]) if cell else 0
        since += passed
        forward = cell == 0 or due(n, trm, k, since) != "no"
        numbers += [passed, FORWARD if forward else dice.choice([BACKWARD, DATA, DATA]), rate]
        k, since = (0, 0) if forward else (k + 1, since)
    return numbers


def place(cell, part):
    """Where a part of a cell stands among the numbers: 0 time, 1 kind, 2 rate."""
    return 2 + 3 * (cell - 1) + part


def changed(numbers, cell, part, value):
    at = place(cell, part)
    return numbers[:at] + [value] + numbers[at + 1:]


def judge(browser, trace):
    """Puts a text into the box, presses the button and waits for the verdict; the sentence."""
    browser.evaluate(f"document.getElementById('trace').value = {json.dumps(trace)}; 0")
    browser.evaluate("document.querySelector('#card button.main').click()")
    return verdict(browser)


def verdict(browser):
    browser.wait("document.querySelector('#card .doing').hidden")
    return browser.evaluate("document.querySelector('#card .verdict').innerText")


def choose(browser, name, content):
    """Chooses a file with this content; the sentence."""
    path = WORK / name
    path.write_bytes(content)
    browser.evaluate("document.querySelector('#card .verdict').replaceChildren()")
    browser.files("#card input[type=file]", path)
    browser.wait("document.querySelector('#card .verdict').innerText !== ''")
    return verdict(browser)


def tool(numbers):
    """What abr-judge says of a text, behind its first colon but one."""
    folder = os.environ.get("CARGO_TARGET_DIR", str(ROOT / "target/cargo"))
    run("cargo", "build", "--release", "--quiet", "-p", "abr-tools")
    (WORK / "tool.text").write_text(text(numbers))
    return run(f"{folder}/release/abr-judge", "--text", str(WORK / "tool.text")).split(": ", 1)[1].strip()


def sentences(browser):
    """Each sentence says what abr-judge says, whose words they are."""
    browser.open(PAGE, "card")
    base = good(5, 0, 300, 1)
    forward = next(cell for cell in range(2, 301) if base[place(cell, 1)] == FORWARD)
    second = next(cell for cell in range(forward + 2, 301) if base[place(cell, 1)] == DATA)
    steady = [3, 7, 0, FORWARD, 512_000] + ([1_000_000, DATA, 512_000] * 7 + [1_000_000, FORWARD, 512_000]) * 5
    cases = [
        steady, changed(steady, 17, 1, BACKWARD), [5, 7], [5, 7, 0, FORWARD, 0], good(1, 7, 90, 2), good(8, 7, 400, 3),
        base, changed(base, 1, 1, DATA), changed(base, 200, 0, gap(base[place(200, 2)]) - 1),
        changed(base, 150, 2, 0), changed(base, forward, 1, DATA), changed(base, second, 1, FORWARD),
    ]
    for numbers in cases:
        said, theirs = judge(browser, text(numbers)), tool(numbers)
        number, _, rest = theirs.removeprefix("cell ").partition(" breaks ")
        rule, _, why = rest.partition(": ")
        wanted = f"The trace breaks {rule} at cell {number}: {why}" if rest else f"The trace {theirs}"
        expect(said, wanted, "the sentence")


def verdicts(browser):
    """Files of octets are judged as in C; the broken cell is marked, and the refused octet shown."""
    browser.open(PAGE, "card")
    dice, base = random.Random(7), good(5, 2, 120, 4)
    for case in range(25):
        cell, part = dice.randrange(1, 121), dice.randrange(3)
        numbers = changed(base, cell, part, dice.choice([0, 1, 2, 3, 9, 700, 2 ** 63])) if case else base
        said = choose(browser, "card.trace", octets(numbers))
        refusal, rule, broken = answers([f"judge {WORK / 'card.trace'}"])[0]
        wanted = "passes:" if (refusal, rule) == ("0", "0") else f"breaks rule {rule} at cell {broken}:"
        wanted = wanted if refusal == "0" else f"is refused with {refusal}:"
        hold(said.startswith(f"card.trace {wanted}"), f"{said}: {wanted}")
        marks = browser.evaluate("""[...document.querySelectorAll("#card svg .broken text, #card tr.broken td")]
            .slice(0, 2).map((each) => each.textContent)""")
        expect(marks, [f"cell {broken} breaks rule {rule}", broken] if broken != "0" else [], "the marks")
        if refusal != "0":
            shown(browser, octets(numbers[:place(cell, part) + 1]), said)


def shown(browser, until, said):
    """The octet of a refusal, which is the last of these."""
    hold(f"seen at octet {len(until)}, in" in said, said)
    expect(browser.evaluate("document.querySelector('#card .octet.wrong').innerText"), f"{until[-1]:02x}", "the octet")


def rows(browser):
    """Gap and forward rule of each cell that is shown are those of the header's rules."""
    browser.open(PAGE, "card")
    for n, trm, seed in [(1, 7, 5), (3, 0, 6), (5, 1, 8), (8, 4, 9)]:
        numbers, k, since, wanted = good(n, trm, 64, seed), 0, 0, []
        judge(browser, text(numbers))
        for cell in range(1, 65):
            passed, kind, rate = numbers[place(cell, 0):place(cell + 1, 0)]
            since += passed
            wanted.append([f"{cell}", f"{gap(rate):,}", due(n, trm, k, since) if cell > 1 else "first cell"])
            k, since = (0, 0) if kind == FORWARD else (k + 1, since)
        expect(browser.evaluate(ROWS), wanted, f"the rows with n {n} and Trm {trm}")
        said = browser.evaluate("document.querySelector('#card .details .note').innerText")
        hold(f"Nrm {2 ** n}, Trm {100_000_000 >> (7 - trm):,} ns" in said, said)


def ends(browser):
    """Traces that are empty, end inside a record or have numbers that are none are refused, and their place is said."""
    browser.open(PAGE, "card")
    cases = {
        "": "is refused with 24: trace is empty or ends inside a record; n is missing or not whole.",
        "5": "the Trm number is missing or not whole.", "5 7 0 1": "the rate of cell 1 is missing or not whole.",
        "5 7\n# a comment\n0 1 512\n\n9 8 7": "is refused with 25: n, Trm number, kind, rate or summed time of a trace "
        "is out of range; it is seen at number 7, line 5, in the kind of cell 2.",
        f"5 7 0 1 {2 ** 64}": "refused with 23: a number of a trace is not in shortest form or over 64 bits; "
        "it is seen at number 5, line 1, in the rate of cell 1.",
        f"5 7 0 1 {129 << 63}": "refused with 23",
    }
    for given, wanted in cases.items():
        said = judge(browser, given)
        hold(wanted in said, f"{said}: {wanted}")
    said = choose(browser, "short.trace", octets([5, 7, 0, 1]) + b"\x85\x00")
    hold("refused with 23" in said and "seen at octet 6, in the rate of cell 1" in said, said)


def rubbish(browser):
    """What is no trace gets a message; text and former result stay."""
    browser.open(PAGE, "card")
    before = judge(browser, text(good(5, 7, 40, 10)))
    cases = {"5 7\nhello": 'line 2: "hello"', "5 7 0 -1 3": 'line 1: "-1"', "5\n\n\n1.5": 'line 4: "1.5"'}
    for given, wanted in cases.items():
        after = judge(browser, given)
        expect(message(browser), f"The trace can't be judged: {wanted} is not a decimal number.", "the message")
        expect(after, before, "the former sentence")
        expect(former(browser), 3, "marks of a former result")
        expect(browser.evaluate("document.getElementById('trace').value"), given, "the text")
    hold("passes" in judge(browser, text(good(5, 7, 30, 11))), "a good trace behind rubbish")
    expect(former(browser), 0, "marks of a former result")
    expect(message(browser), "", "the message")
    for given in ("5,7,0,1", "5;7;0", "5 7 0 1,512"):
        judge(browser, given)
        wanted = f'line 1: "{given.split()[-1]}" is not a decimal number; spaces or line ends stand between numbers.'
        hold(message(browser).endswith(wanted), message(browser))
    said = browser.evaluate("document.querySelector('#card .note').innerText")
    hold("units of 1/512 cell per second" in said and "Spaces or line ends stand between numbers" in said, said)


def message(browser):
    return browser.evaluate("document.querySelector('#card .message').innerText")


def former(browser):
    """How many marks say that what is shown is of the trace before: its two parts and the sentence."""
    return browser.evaluate("""document.querySelectorAll("#card .former").length +
        [...document.querySelectorAll("#card .note")].filter((each) => each.checkVisibility()
            && each.innerText === "What stands below is of the trace before.").length""")


def no_trace(browser):
    """A file that is something else is said to look so; a damaged trace is not."""
    browser.open(PAGE, "card")
    looks = "This does not look like a trace."
    trace = octets(good(5, 7, 40, 12))
    others = {"a.png": (ROOT / "docs/page-card.png").read_bytes(), "a.text": b"The cells of a card\n",
              "a.o": b"\x01\x00\x00\x00\x00"}
    for name, content in others.items():
        said = choose(browser, name, content)
        hold(" is refused with " in said and said.endswith(looks), said)
    for content in (trace[:-1], trace[:4], trace[:-3] + b"\x09" + trace[-2:], b"5 7 0 1 0 0\n", b""):
        said = choose(browser, "cut.trace", content)
        hold(" is refused with " in said and looks not in said, said)
    hold(looks not in judge(browser, "99 99 99"), "a text that is pasted")
    for content, wanted in ((b"# Cells\n\nof a card", True), (b"5 7 0 1 512 x", False), (b"5,7,0,1", False)):
        (WORK / "words.text").write_bytes(content)
        browser.files("#card input[type=file]", WORK / "words.text")
        browser.wait("document.querySelector('#card .message').innerText !== ''")
        expect(looks in message(browser), wanted, message(browser))
        judge(browser, "5 7")


def numbers_shown(browser):
    """The first and the last cell that the table has, and how many."""
    found = browser.evaluate("""[...document.querySelectorAll("#card tbody tr")].map((row) =>
        Number(row.cells[0].textContent.replaceAll(",", "")))""")
    return found[0], found[-1], len(found)


def press(browser, name, first):
    """Presses a button for other cells by a key, and waits for the first cell."""
    browser.evaluate(f"document.querySelector(\"#card [aria-label='{name} cells']\").focus()")
    browser.keys("Enter")
    browser.wait(f"document.querySelector('#card tbody td').textContent === '{first:,}'")
    expect(browser.evaluate("document.activeElement.ariaLabel"), f"{name} cells", "the focus")


def seek(browser, number):
    browser.evaluate("document.getElementById('sought').focus(); document.getElementById('sought').select()")
    browser.insert(number)
    browser.keys("Enter")


def other_cells(browser):
    """Earlier and later cells and one by its number are shown by keys, with the gap and the rule of each."""
    browser.open(PAGE, "card")
    numbers, k, since, wanted = good(5, 0, 1000, 13), 0, 0, []
    for cell in range(1, 1001):
        passed, kind, rate = numbers[place(cell, 0):place(cell + 1, 0)]
        since += passed
        wanted.append([f"{cell:,}", f"{gap(rate):,}", due(5, 0, k, since) if cell > 1 else "first cell"])
        k, since = (0, 0) if kind == FORWARD else (k + 1, since)
    judge(browser, text(numbers))
    for name, first in (("Later", 65), ("Later", 129), ("Earlier", 65), ("Last", 937), ("Later", 937),
                        ("Earlier", 873), ("First", 1), ("Earlier", 1)):
        press(browser, name, first)
        expect(numbers_shown(browser), (first, first + 63, 64), "the cells")
        expect(browser.evaluate(ROWS), wanted[first - 1:first + 63], "the rows")
    for number, first in (("500", 468), ("1,000", 937), ("1", 1)):
        seek(browser, number)
        browser.wait(f"document.querySelector('#card tr.sought td')?.textContent === '{number}'")
        expect(numbers_shown(browser), (first, first + 63, 64), "the cells")
        expect(browser.evaluate(ROWS), wanted[first - 1:first + 63], "the rows")
        hold(browser.evaluate(IN_VIEW), f"cell {number} is not in view")
        expect(browser.evaluate("document.querySelector('#card svg .sought text').textContent"), f"cell {number}", "")
    for number in ("0", "1001", "x", ""):
        seek(browser, number)
        said = browser.evaluate("document.querySelector('#card .browse .message').innerText")
        expect(said, f'There is no cell "{number}"; there are cells 1 to 1,000.', "the message")
    judge(browser, text(changed(numbers, 500, 2, 0)))
    expect(numbers_shown(browser), (453, 516, 64), "the cells round the break")
    judge(browser, text(numbers[:2 + 3 * 64]))
    expect(browser.evaluate("document.querySelector('#card .browse').checkVisibility()"), False, "nothing to look for")


def of_before(browser):
    """While a trace is judged the verdict before is marked; its cells can be looked at, and also behind rubbish."""
    browser.open(PAGE, "card")
    before = judge(browser, text(good(5, 7, 200, 14)))
    seen = browser.evaluate("document.querySelector('#card button.main').click(), 0")
    expect((former(browser), seen), (3, 0), "marks while it is judged")
    verdict(browser)
    expect(former(browser), 0, "marks behind it")
    expect(judge(browser, "x"), before, "the former sentence")
    press(browser, "Later", 65)
    expect(former(browser), 3, "marks behind rubbish")


def one_cell(browser):
    """The axis of one cell has its time, and no part of a nanosecond."""
    browser.open(PAGE, "card")
    for given, wanted in {"5 7 0 1 512": ["0 ns"], "5 7 0 1 512 2 3 512": ["0 ns", "1 ns", "2 ns"]}.items():
        judge(browser, given)
        ticks = browser.evaluate("[...document.querySelectorAll('#card svg text')].map((each) => each.textContent)")
        expect([tick for tick in ticks if tick.endswith("s") and tick[0].isdigit()], wanted, "the ticks")
        hold(browser.evaluate("document.querySelector('#card .rate').getBBox().width > 100"), "the rate has no line")


def sideways(browser):
    """A table that is wider than its place says so."""
    for width in (400, 1280):
        browser.device(width)
        browser.open(PAGE, "card")
        judge(browser, text(good(5, 7, 40, 15)))
        wide = browser.evaluate("(({ scrollWidth, clientWidth }) => scrollWidth > clientWidth)"
                                "(document.querySelector('#card .scroll'))")
        said = "it scrolls sideways" in browser.evaluate("document.querySelector('#card .details').innerText")
        expect((wide, said), (width == 400, width == 400), f"the table and what is said at {width} pixels")


def kept(browser):
    """A small text stays when the page is loaded again, also without a place for it."""
    browser.open(PAGE, "card")
    box = "document.getElementById('trace').value"
    written = text(good(5, 7, 40, 16))
    for given, wanted in ((written, written), (written * 1000, ""), ("5 7", "5 7"), ("", "")):
        browser.evaluate(f"document.getElementById('trace').value = {json.dumps(given)}; 0")
        browser.evaluate("document.getElementById('trace').dispatchEvent(new Event('input')), 0")
        browser.open(PAGE, "card")
        expect(browser.evaluate(box), wanted, "the text of a page that is loaded again")
    browser.evaluate("Object.defineProperty(globalThis, 'sessionStorage', { get() { throw new Error('none'); } }); 0")
    hold("passes" in judge(browser, written), "a page without a place for it")
    expect(browser.errors, [], "errors")


def dropped(browser):
    """A file that is dropped, on whichever tab, is judged, also if it is a text."""
    browser.open(PAGE, "cell")
    written = text(good(5, 7, 40, 12)).encode()
    for content in (octets(good(5, 7, 40, 12)), written, b"# a card\n" + written, b"\xef\xbb\xbf" + written):
        browser.evaluate(f"""(() => {{
            const data = new DataTransfer();
            data.items.add(new File([Uint8Array.from({list(content)})], "card"));
            const event = (type) => new DragEvent(type, {{ dataTransfer: data, bubbles: true, cancelable: true }});
            document.querySelector("main").dispatchEvent(event("dragover"));
            document.querySelector("main").dispatchEvent(event("drop"));
        }})()""")
        browser.wait("!document.getElementById('card').hidden", 5)
        hold(verdict(browser).startswith("card passes: 40 cells in"), verdict(browser))


def large(browser):
    """The page answers while 50 MB are judged, and says how far it is."""
    browser.open(PAGE, "card")
    head = octets([5, 7, 0, FORWARD, 512_000])
    turn = octets([1_000_000, DATA, 512_000] * 31 + [1_000_000, FORWARD, 512_000])
    turns = (LARGE - len(head)) // len(turn)
    whole, cells = head + turn * turns, 1 + 32 * turns
    browser.evaluate(WATCH)
    begin = time.monotonic()
    said = choose(browser, "large.trace", whole)
    took = 1000 * (time.monotonic() - begin)
    expect(said, f"large.trace passes: {cells:,} cells in {cells - 1:,},000,000 ns follow the rules.", "the sentence")
    press(browser, "Last", cells - 63)
    seek(browser, f"{cells // 2}")
    browser.wait(f"document.querySelector('#card tr.sought td')?.textContent === '{cells // 2:,}'")
    expect(numbers_shown(browser), (cells // 2 - 32, cells // 2 + 31, 64), "the cells in the middle")
    said = choose(browser, "large.trace", whole[:-4] + b"\x09" + whole[-3:])
    hold(said.startswith("large.trace is refused with 25: "), said)
    hold(said.endswith(f"seen at octet {len(whole) - 3:,}, in the kind of cell {cells:,}."), said)
    longest = browser.evaluate("longest")
    hold(longest < max(PAUSE, took / 4), f"the page did not answer for {longest:.0f} ms of {took:.0f}")
    hold({"judging", "finding the refused octet"} <= set(browser.evaluate("[...said]")), "no progress is said")
    (WORK / "large.trace").unlink()


def examples(browser):
    """The examples pass, break and are refused as their names say."""
    browser.open(PAGE, "card")
    does_what = ["passes", "breaks rule 2 at cell 48", "breaks rule 3 at cell 33", "is refused with 25"]
    for number, does in enumerate(does_what):
        browser.evaluate(f"document.querySelectorAll('#card .examples button')[{number}].click()")
        said = verdict(browser)
        hold(said.startswith(f"The trace {does}:"), said)


def picture(browser):
    browser.evaluate("document.querySelectorAll('#card .examples button')[1].click()")
    verdict(browser)


TESTS = [
    ("card: the sentences are those of abr-judge", sentences),
    ("card: verdicts of files as in C, with their marks", verdicts),
    ("card: gap and forward rule of each cell", rows),
    ("card: traces that end early and numbers that are none", ends),
    ("card: rubbish loses nothing", rubbish),
    ("card: a file that is dropped", dropped),
    ("card: 50 MB without a pause", large),
    ("card: a file that is no trace", no_trace),
    ("card: other cells, by keys", other_cells),
    ("card: what is of the trace before", of_before),
    ("card: one cell", one_cell),
    ("card: a table wider than its place", sideways),
    ("card: a text outlives a reload", kept),
    ("card: examples", examples),
]
