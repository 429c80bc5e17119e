"""The Cell tab: cells good and damaged, fields changed and written anew, and rates, all as the library in C answers."""

import json
import random

from support import PAGE, answers, expect, hold

FIELDS = ["vpi", "vci", "dir", "bn", "ci", "ni", "ra", "er", "ccr", "mcr", "ql", "sn"]
BITS = dict(zip(FIELDS, [8, 16, 1, 1, 1, 1, 1, 15, 15, 15, 32, 32]))
OK = "0"
REFUSED = {"1": "cell or buffer is not 53 octets", "2": "octet 5 is wrong", "4": "payload type is 4, 5 or 7",
           "5": "CRC-10 is wrong", "6": "protocol is not 1", "19": "reserved bit of a rate code is set"}


def fields(dice):
    return [dice.getrandbits(BITS[name]) for name in FIELDS]


def written(*rows):
    """The cells of these fields, in hexadecimal."""
    return [cell for _, cell in answers("write " + " ".join(map(str, row)) for row in rows)]


def paste(browser, octets):
    """Puts a text into the box as typing does; the verdict."""
    browser.evaluate(f"""(() => {{
        const box = document.getElementById("octets");
        box.value = {json.dumps(octets)};
        box.dispatchEvent(new Event("input"));
    }})()""")
    return browser.evaluate("document.querySelector('#cell .verdict').innerText")


def shown(browser):
    """The fields as the boxes have them."""
    found = browser.evaluate("""Object.fromEntries([...document.querySelectorAll("#cell [id^=field-]")].map((box) =>
        [box.id.slice(6), box.type === "checkbox" ? Number(box.checked) : Number(box.value)]))""")
    return [found[name] for name in FIELDS]


def anew(browser):
    """The cell written anew."""
    return browser.evaluate("document.querySelector('#cell .fields ~ .octets').innerText.replace(/\\s/g, '')")


def spaced(octets):
    return " ".join(octets[at:at + 2] for at in range(0, len(octets), 2))


def changed(octets, place, by):
    """The cell with bits of an octet, counted from 1, turned round."""
    at = 2 * place - 2
    return octets[:at] + f"{int(octets[at:at + 2], 16) ^ by:02x}" + octets[at + 2:]


def good(browser):
    """Cells of the library are read with the fields that they were written from, and written anew as they are."""
    browser.open(PAGE, "cell")
    dice = random.Random(1)
    rows = [fields(dice) for _ in range(20)]
    for row, cell in zip(rows, written(*rows)):
        form = dice.choice([str, spaced, lambda octets: spaced(octets).upper().replace(" ", ", 0x")])
        said = paste(browser, form(cell))
        direction = "backward" if row[2] else "forward"
        expect(said, f"The library reads it: a {direction} RM cell of VPI {row[0]}, VCI {row[1]}.", "the verdict")
        expect(shown(browser), row, "the fields")
        expect(anew(browser), cell, "the cell written anew")
        expect(browser.evaluate("document.querySelectorAll('#cell em.good').length"), 2, "right checks")
        expect(browser.evaluate("location.hash"), f"#cell?octets={cell}", "the address")


def damaged(browser):
    """Octets changed at random: the refusal is that of C, and the checks that should be there are accepted in C."""
    browser.open(PAGE, "cell")
    dice = random.Random(2)
    cells = written(*[fields(dice) for _ in range(60)])
    for place in range(60):
        for _ in range(dice.choice([1, 1, 2, 3])):
            cells[place] = changed(cells[place], dice.choice([1, 2, 4, 5, 6, 8, 9, 30, 52, 53]), 1 << dice.randrange(8))
    seen = set()
    for cell, (refusal, kind, *_) in zip(cells, answers(f"read {cell}" for cell in cells)):
        said = paste(browser, cell)
        seen.add(refusal)
        if refusal == OK:
            hold(said.startswith("The library reads it: a "), said)
            continue
        why = f"The library refuses it with {refusal}: {REFUSED[refusal]}"
        hold(said.startswith((f"{why}.", f"{why};")), f"{refusal}: {said}")
        repaired(browser, cell, said)
    expect(seen, {"2", "5"}, "the refusals that were seen")


def repaired(browser, cell, said):
    """C reads the cell with what the page says should be there, unless the payload type is refused."""
    puts = browser.evaluate("""[...document.querySelectorAll("#cell .parts em.bad")].map((bad) =>
        [bad.closest("tr").querySelector("small").innerText, bad.innerText])""")
    expect(browser.evaluate("document.querySelectorAll('#cell .parts .octet.wrong').length > 0"), True, "marked octets")
    for places, should in puts:
        at, octets = 2 * int(places.split()[1].rstrip(",")) - 2, should.removeprefix("should be ").replace(" ", "")
        if should != "refused":
            cell = cell[:at] + octets + cell[at + len(octets):]
    # with another protocol or rate the CRC-10 is another too
    if "protocol" not in said and "reserved bit" not in said:
        stays = "4" if any(should == "refused" for _, should in puts) else OK
        expect(answers([f"read {cell}"])[0][0], stays, "the refusal of what should be there")


def refusals(browser):
    """Every refusal of abr_read, alone and with those that follow it."""
    browser.open(PAGE, "cell")
    row = [1, 100, 1, 0, 1, 0, 0, 0x64B1, 0x53E8, 0x4D20, 7, 9]
    cell = written(row)[0]
    protocol, reserved = changed(cell, 6, 3), changed(cell, 8, 0x80)
    for given, wanted in {
        cell[:-2]: "refuses it with 1: cell or buffer is not 53 octets; it has 52.",
        changed(cell, 5, 1): "2: octet 5 is wrong; the header check is 6b and should be 6a.",
        changed(cell, 53, 1): "5: CRC-10 is wrong; it is",
        protocol: "6: protocol is not 1; it is 02 and should be 01",
        reserved: "19: reserved bit of a rate code is set; ER is e4 b1 and should be 64 b1",
    }.items():
        said = paste(browser, given)
        hold(wanted in said, said)
        reason = wanted.split(": ")[1].split(";")[0]
        expect(said.count(reason), 1, f"how often {reason} is said")
    hold("put right it is a backward RM cell of VPI 1, VCI 100." in paste(browser, protocol), "put right")
    expect(shown(browser), row, "the fields behind a wrong protocol")
    both = paste(browser, changed(changed(reserved, 5, 0x40), 6, 3))
    places = [both.find(text) for text in (" 2: octet 5", "\n5: CRC-10", "\n6: protocol", "\n19: reserved")]
    hold(-1 not in places and places == sorted(places), both)
    hold("With all that put right it is a backward RM cell" in both, both)


def payload_type(browser):
    """A payload type that is refused; its header check is found by the page, and C refuses the type behind it."""
    browser.open(PAGE, "cell")
    header = "00100648"
    said = paste(browser, header + "00" + 48 * "6a")
    right = said.split("should be ")[1][:2]
    cell = header + right + 48 * "6a"
    expect(answers([f"read {cell}"])[0][0], "4", "the refusal in C")
    hold("\n4: payload type is 4, 5 or 7" in said, said)
    said = paste(browser, cell)
    hold(said.startswith("The library refuses it with 4: payload type is 4, 5 or 7."), said)


def data_cell(browser):
    browser.open(PAGE, "cell")
    said = paste(browser, "001006 44 52" + 48 * " 00")
    expect(said, "The library reads it: a data cell of VPI 1, VCI 100, with the congestion mark.", "the verdict")
    hold("the library writes no data cells" in browser.evaluate("document.getElementById('cell').innerText"), "a note")
    expect(shown(browser), [1, 100] + 10 * [0], "the fields")
    hold("header check is 53 and should be 52" in paste(browser, "0010064453" + 48 * "00"), "a wrong header check")


def rubbish(browser):
    browser.open(PAGE, "cell")
    cell = written([1, 100, 1, 0, 0, 0, 0, 0x64B1, 0x53E8, 0x4D20, 0, 0])[0]
    before = paste(browser, cell)
    cases = {"hello": '"h" is no hexadecimal digit', "": "there is no octet", "123": "3 digits can't be whole octets",
             "1": "1 digit can't"}
    for given, wanted in cases.items():
        expect(paste(browser, given), before, "the former verdict")
        message = browser.evaluate("document.querySelector('#cell .message').innerText")
        hold(wanted in message and "What stands below is of the cell before." in message, message)
        expect(browser.evaluate("document.getElementById('octets').value"), given, "the text")
        expect(browser.evaluate("document.querySelectorAll('#cell .former').length"), 2, "marks of a former result")
        expect(anew(browser), cell, "the cell written anew")
    paste(browser, cell)
    expect(browser.evaluate("document.querySelectorAll('#cell .former').length"), 0, "marks that stay")


def changed_by_keys(browser):
    """A field is changed by keys alone, and the cell written anew is read."""
    row = [1, 100, 1, 0, 1, 0, 0, 0x64B1, 0x53E8, 0x4D20, 0, 0]
    cell, other = written(row, row[:3] + [1] + row[4:7] + [0x53E8] + row[8:])
    browser.open(PAGE, f"cell?octets={cell}")
    browser.evaluate("document.getElementById('field-vci').focus()")
    browser.keys("Tab", "Tab", " ", *["Tab"] * 4)
    expect(browser.evaluate("document.activeElement.id"), "field-er", "the focus")
    browser.insert("0x53E8")
    expect(anew(browser), other, "the cell written anew")
    expect(browser.evaluate("document.querySelectorAll('#cell .octet.changed').length"),
           sum(cell[at:at + 2] != other[at:at + 2] for at in range(0, 106, 2)), "changed octets")
    browser.keys(*["Tab"] * 6, "Enter")
    expect(browser.evaluate("document.getElementById('octets').value"), spaced(other), "the octets that are read")
    hold(FORMER not in compared(browser), compared(browser))


FORMER = "The fields are of an earlier cell"


def compared(browser):
    """What is said of the cell written anew."""
    return browser.evaluate("document.querySelector('#cell .fields ~ .note').innerText")


def fields_of_which(browser):
    """Fields that are not of the cell that was pasted are said to be of another, and compared with none."""
    one, other = written([1, 100, 1, 0, 1, 0, 0, 0x64B1, 0x53E8, 0x4D20, 0, 0], [2, 50] + 10 * [0])
    browser.open(PAGE, "cell?octets=00")
    hold("of no cell" in compared(browser), compared(browser))
    for given in (106 * "f", "00:10:06", one[:-2], one + "00", "hello", ""):
        paste(browser, one)
        expect(compared(browser), "It is the cell that was read, octet for octet.", "the comparison")
        paste(browser, given)
        hold(compared(browser).startswith(FORMER), f"{given}: {compared(browser)}")
        expect(anew(browser), one, "the cell written anew")
        field(browser, "vci", "101")
        hold(compared(browser).startswith(FORMER), f"{given}: {compared(browser)}")
        expect(browser.evaluate("document.querySelectorAll('#cell .octet.changed').length"), 0, "changed octets")
    paste(browser, other)
    expect(compared(browser), "It is the cell that was read, octet for octet.", "the comparison")
    field(browser, "sn", "1")
    hold("the cell that was read in 3 octets: 21, 52, 53." in compared(browser), compared(browser))
    paste(browser, changed(other, 5, 1))
    hold("the cell that was read in 1 octet: 5." in compared(browser), compared(browser))


def field(browser, name, value):
    """Types into the box of a field; what is said of it."""
    browser.evaluate(f"""(() => {{
        const box = document.getElementById("field-{name}");
        box.value = {json.dumps(value)};
        box.dispatchEvent(new Event("input"));
    }})()""")
    return browser.evaluate("document.querySelector('#cell .fields ~ .message').innerText")


def out_of_range(browser):
    """Each field that is wrong is named, with its range, whose ends C takes and whose next number it refuses."""
    row = [1, 100, 1, 0, 1, 0, 0, 0x64B1, 0x53E8, 0x4D20, 0, 0]
    cell = written(row)[0]
    browser.open(PAGE, f"cell?octets={cell}")
    for name in ("vpi", "vci", "er", "ccr", "mcr", "ql", "sn"):
        said = field(browser, name, "")
        text = said.split(" to ")[1].split(". ")[0]
        most, at = int(text.replace(",", ""), 0), FIELDS.index(name)
        low = "0x0000" if text.startswith("0x") else "0"
        stays = f"and must be a number from {low} to {text}. The cell below stays as it was."
        expect(said, f"{name.upper()} is empty {stays}", "an empty box")
        expect(field(browser, name, "x"), f'{name.upper()} is "x" {stays}', "no number")
        taken = [refusal for refusal, _ in answers(f"write {' '.join(map(str, row[:at] + [value] + row[at + 1:]))}"
                                                   for value in (0, most, min(most + 1, 2 ** 32 - 1)))]
        expect(taken, [OK, OK, "7" if most < 2 ** 32 - 1 else OK], f"the refusals in C around the range of {name}")
        refused = "Refused with 7: " if most < 2 ** 32 - 1 else ""
        expect(field(browser, name, str(most + 1)), f'{refused}{name.upper()} is "{most + 1}" {stays}', "out of range")
        expect(anew(browser), cell, "the cell written anew behind a refusal")
        expect(browser.evaluate("document.querySelector('#cell .fields [aria-invalid=true]').id"), f"field-{name}", "")
        expect(field(browser, name, str(row[at])), "", "what is said of the right field")
    field(browser, "vci", "65536")
    said = field(browser, "vpi", "256")
    hold(said.startswith('Refused with 7: VPI is "256" and must') and '; VCI is "65536" and must' in said, said)


def typed(browser, form, value):
    """Types a rate into one of the four boxes; what all have, and what is said."""
    return browser.evaluate(f"""(() => {{
        const box = document.getElementById("rate-{form}");
        box.value = "{value}";
        box.dispatchEvent(new Event("input"));
        const boxes = [...box.closest(".panel").querySelectorAll("input")].map((each) => each.value);
        return [...boxes, box.closest(".panel").querySelector("[role=status]").innerText];
    }})()""")


def rates(browser):
    """Codes, units, cells and megabits per second, as abr_rate, abr_code and abr_import answer in C."""
    browser.open(PAGE, "cell")
    dice = random.Random(3)
    codes = [0, 0x3FFF, 0x4000, 0x53E8, 0x7FFF, *[dice.randrange(0x8000) for _ in range(20)]]
    for code, (_, rate) in zip(codes, answers(f"rate {code}" for code in codes)):
        _, units, cells, megabits, _ = typed(browser, "code", f"0x{code:04x}")
        expect(units, f"{int(rate):,}", f"the units of {code}")
        hold(abs(float(cells.replace(",", "")) - int(rate) / 512) < 0.001, f"{cells} cells of {code}")
        hold(abs(float(megabits.replace(",", "")) - int(rate) / 512 * 424e-6) < 0.001, f"{megabits} Mbit of {code}")
    units = [511, 512, 513, 2196875771904, *[dice.getrandbits(dice.randrange(9, 41)) for _ in range(20)]]
    for each, (_, code) in zip(units, answers(f"code {each}" for each in units)):
        expect(typed(browser, "units", each)[0], f"0x{int(code):04X}", f"the code of {each} units")
    cells = [1, 1000.5, 353207, 2 ** 32 - 1, *[dice.uniform(1, 1e6) for _ in range(20)]]
    for each, (_, code, more) in zip(cells, answers(f"import {each!r}" for each in cells)):
        found = typed(browser, "cells", repr(each))
        expect(found[0], f"0x{int(code):04X}", f"the code of {each} cells")
        hold(("It is the rate of the code" in found[4]) == (float(more) == 0), found[4])
    for form, value, wanted in [("code", "0x8000", "Refused with 19"), ("code", "0x10000", "Refused with 7"),
                                ("units", 2196875771905, "Refused with 9"), ("cells", "0.5", "Refused with 20"),
                                ("megabits", "0.000212", "Refused with 20 as 0.5 cells/s: not a rate"),
                                ("megabits", "fast", "That is no number"), ("units", "1.5", "That is no number"),
                                ("megabits", "0,424", "A comma stands only between thousands"), ("cells", "", "It is "),
                                ("cells", "10,00", "A comma"), ("units", "1,0000", "A comma"),
                                ("cells", "1000,000", "A comma"), ("megabits", "1,5", "A comma")]:
        before = typed(browser, "code", "0x53E8")
        found = typed(browser, form, value)
        hold(found[4].startswith(wanted), f"{value}: {found[4]}")
        hold(found[4].endswith(". The other boxes are of the rate before."), f"{value}: {found[4]}")
        others = [place for place, name in enumerate(["code", "units", "cells", "megabits"]) if name != form]
        expect([found[place] for place in others], [before[place] for place in others], "the other boxes")
    expect(typed(browser, "megabits", "1,234.5")[2], typed(browser, "megabits", "1234.5")[2], "a number in groups")
    for form, value, most in (("code", "0x8000", "0x7FFF"), ("units", 2 ** 42, "2,196,875,771,904")):
        hold(f"; the greatest is {most}. The" in typed(browser, form, value)[4], f"the greatest of {form}")
        hold("It is the rate of the code 0x7FFF" in typed(browser, form, most)[4], f"{most} is refused")
    expect(typed(browser, "megabits", "0.424")[2], "1,000", "a thousand cells of 424 bits")
    hold("a cell counts as 424 bits (53 octets)" in browser.evaluate("document.getElementById('cell').innerText"), "")


def picture(browser):
    browser.evaluate("document.querySelectorAll('#cell .examples button')[3].click()")


TESTS = [
    ("cell: good ones, read and written anew", good),
    ("cell: damaged ones, and what should be there", damaged),
    ("cell: every refusal", refusals),
    ("cell: a payload type that is refused", payload_type),
    ("cell: data", data_cell),
    ("cell: rubbish loses nothing", rubbish),
    ("cell: a field changed by keys, and the cell read again", changed_by_keys),
    ("cell: fields of another cell than the last one", fields_of_which),
    ("cell: a field out of its range", out_of_range),
    ("cell: rates in four forms", rates),
]
