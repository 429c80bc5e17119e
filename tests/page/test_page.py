"""The page as a whole: how it is made, what it asks for, its version, its keys, and whether it can be read."""

import json
import re
import runpy

from support import PAGE, ROOT, TABS, WORK, expect, hold, run

# What keys must reach: all that has a function in the tab that is shown. Arrows lead to the other tabs; an input that
# is not seen has a button beside it.
CONTROLS = """[...document.querySelectorAll("button, input, select, textarea, summary, a[href], [tabindex='0']")]
    .filter((each) => each.checkVisibility({ visibilityProperty: true }) && !each.disabled
        && !each.matches(".unseen, [role=tab][aria-selected=false]"))"""

# What has the focus: its place among the controls, and whether it has a mark of the focus and a name.
FOCUSED = """(() => {
    const now = document.activeElement, style = getComputedStyle(now);
    return {
        place: controls.indexOf(now), is: now.outerHTML.slice(0, 90),
        outline: style.outlineStyle !== "none" && parseFloat(style.outlineWidth) >= 2,
        named: Boolean(now.labels?.length || now.ariaLabel || now.textContent.trim()),
    };
})()"""

LEGIBLE = f"(() => {{ {(ROOT / 'tests/page/legible.js').read_text(encoding='utf-8')} return legible(); }})()"


def made(_):
    again = WORK / "abr.html"
    run("scripts/page", str(again))
    hold(again.read_bytes() == PAGE.read_bytes(), "docs/abr.html is another: make page")


def declared_twice(_):
    alone = runpy.run_path(str(ROOT / "scripts/page"))["alone"]
    alone({"a.js": "const a = 1;\n", "b.js": "const b = 1;\n"})
    try:
        alone({"a.js": "const a = 1;\n", "b.js": "function a() {\n}\n"})
    except SystemExit as said:
        expect(str(said), "no page: declared twice: a in a.js and b.js", "the message")
        return
    hold(False, "a name that two scripts declare")


def from_disk(browser):
    for tab in TABS:
        browser.open(PAGE, tab)
        expect(browser.evaluate("document.querySelector('[role=tab][aria-selected=true]').id"), f"tab-{tab}", "the tab")
        hold(all(each.startswith(("file:", "blob:", "data:")) for each in browser.requests), str(browser.requests))
    policy = browser.evaluate("document.querySelector('meta[http-equiv]').content")
    hold(policy.startswith("default-src 'none';"), policy)
    refused = browser.evaluate("fetch('http://127.0.0.1:9/').then(() => 'answered', () => 'refused')")
    expect(refused, "refused", "a request to the network")
    expect(len([each for each in browser.requests if each.startswith("http")]), 0, "requests that left")


def version(browser):
    browser.open(PAGE)
    found = re.search(r"^/\* (\d+\.\d+\.\d+): major", (ROOT / "include/abr.h").read_text(), re.M)[1]
    said = browser.evaluate("document.getElementById('version').innerText")
    expect(said, f"Version {found}: the proved module, compiled for WebAssembly.", "the version")


def exports(browser):
    browser.open(PAGE)
    found = browser.evaluate("""WebAssembly.compile(moduleOctets()).then((module) => ({
        imports: WebAssembly.Module.imports(module),
        exports: WebAssembly.Module.exports(module).map(({ name }) => name) }))""")
    expect(found["imports"], [], "what the module imports")
    expect(sorted(found["exports"]), sorted(run("scripts/functions").split() + ["memory", "__heap_base"]), "exports")


def not_cut(browser):
    """A number that is none of its C type, and a missing argument, reach no call."""
    browser.open(PAGE)
    for call in ["abr_rate(-1)", "abr_rate(2 ** 32)", "abr_rate(1.5)", "abr_rate('1')", "abr_rate(NaN)", "abr_rate()",
                 "abr_code(1)", "abr_code(-1n)", "abr_code(2n ** 64n)", "abr_house(1, 2)", "abr_fair_share(1n, [1])"]:
        made = f"loadEngine().then((engine) => engine.{call})"
        thrown = browser.evaluate(f"{made}.then(() => 'no error', (error) => error.name)")
        hold(thrown in ("RangeError", "TypeError"), f"{call}: {thrown}")
    expect(browser.evaluate("loadEngine().then((engine) => engine.abr_rate(2 ** 32 - 1).refusal)"), 7, "the refusal")


def tabs_by_keys(browser):
    browser.open(PAGE, "link")
    browser.evaluate("document.getElementById('tab-link').focus()")
    for tab in ["card", "cell", "link"]:
        browser.keys("ArrowRight")
        browser.wait(f"document.activeElement.id === 'tab-{tab}' && !document.getElementById('{tab}').hidden", 5)
        expect(browser.evaluate("location.hash.split('?')[0]"), f"#{tab}", "the address")
    browser.keys("ArrowLeft")
    browser.wait("document.activeElement.id === 'tab-cell' && document.getElementById('link').hidden", 5)


def fill(browser, tab):
    """Brings a tab to a state with all that it can show."""
    if tab == "card":
        browser.evaluate("document.querySelectorAll('#card .examples button')[1].click()")
        browser.wait("document.querySelector('#card tr.broken') !== null")
    elif tab == "cell":
        browser.evaluate("document.querySelectorAll('#cell .examples button')[3].click()")


def reached(tab):
    """Tab leads through all controls of a tab, each with a name and a mark of the focus."""
    def test(browser):
        browser.device(1280)
        browser.open(PAGE, tab)
        fill(browser, tab)
        browser.evaluate(f"globalThis.controls = {CONTROLS}; document.activeElement.blur(); 0")
        count, seen = browser.evaluate("controls.length"), set()
        for _ in range(count + 4):
            browser.keys("Tab")
            now = browser.evaluate(FOCUSED)
            if now["place"] >= 0:
                seen.add(now["place"])
                hold(now["outline"], f"no mark of the focus: {now['is']}")
                hold(now["named"], f"no name: {now['is']}")
        missed = [each for each in range(count) if each not in seen]
        hold(count >= 5, f"only {count} controls")
        lost = browser.evaluate(f"{json.dumps(missed)}.map((each) => controls[each].outerHTML.slice(0, 90))")
        expect(lost, [], "what keys do not reach")
    return test


def legible(tab, width, dark):
    def test(browser):
        browser.device(width, dark=dark)
        browser.open(PAGE, tab)
        fill(browser, tab)
        found = browser.evaluate(LEGIBLE)
        hold(found["count"] > 20, f"only {found['count']} texts")
        expect(found["wrong"], [], "what is not legible")
    return test


TESTS = [
    ("docs/abr.html is what scripts/page makes of the module", made),
    ("a name that two scripts declare is refused", declared_twice),
    ("it opens from disk and asks no network", from_disk),
    ("it says the header's version", version),
    ("its module exports the functions of abr.h and imports nothing", exports),
    ("no number is cut on its way to a call", not_cut),
    ("arrows go from tab to tab", tabs_by_keys),
    *[(f"keys alone reach everything: {tab}", reached(tab)) for tab in TABS],
    *[(f"legible: {tab}, {width} pixels, {'dark' if dark else 'light'}", legible(tab, width, dark))
      for tab in TABS for width in (1280, 400) for dark in (False, True)],
]
