"""What the tests of the page share: the page, programs in C on the library, and comparisons."""

import os
import subprocess
import sys
import time
import traceback
from pathlib import Path

from browser import Failure

ROOT = Path(__file__).resolve().parents[2]
WORK = ROOT / "target/tests/page"
LIBRARY = Path(os.environ.get("ABR_LIB", ROOT / "target/staticlib/libabr.a"))
# ABR_PAGE names another page, to see that its faults are found
PAGE = Path(os.environ.get("ABR_PAGE", ROOT / "docs/abr.html"))
TABS = ["link", "card", "cell"]
STRICT = ["-std=c99", "-O2", "-Wall", "-Wextra", "-pedantic", "-Werror", "-Iinclude"]


def tried(browser, name, test):
    """Whether a test passes; what is wrong is printed."""
    begin = time.monotonic()
    try:
        test(browser)
        wrong = "\n".join(browser.errors)
    except Failure as failure:
        wrong = str(failure)
    except Exception:
        wrong = traceback.format_exc()
    seconds = time.monotonic() - begin
    print(f"{'FAILED' if wrong else 'ok    '}  {name} ({seconds:.1f} s)")
    for line in wrong.splitlines():
        print(f"    {line}")
    sys.stdout.flush()
    return not wrong


def expect(found, wanted, what):
    if found != wanted:
        raise Failure(f"{what}:\n  found  {str(found)[:2000]}\n  wanted {str(wanted)[:2000]}")


def hold(holds, what):
    if not holds:
        raise Failure(f"it does not hold: {what}")


def run(*words, given=None, **settings):
    """What a program prints."""
    done = subprocess.run(words, cwd=ROOT, input=given, capture_output=True, text=True, env=os.environ | settings)
    if done.returncode not in (0, 1) or (done.returncode and done.stderr):
        raise Failure(f"{words[0]}: status {done.returncode}\n{done.stderr}")
    return done.stdout


def program(source):
    """A program of tests/page, built with the library."""
    built = WORK / Path(source).stem
    if not built.exists():
        run("gcc", *STRICT, f"tests/page/{source}", str(LIBRARY), "-o", str(built))
    return str(built)


def answers(requests):
    """What the library for this processor answers to requests (calls.c), each as its words."""
    said = run(program("calls.c"), given="".join(f"{request}\n" for request in requests))
    return [line.split() for line in said.splitlines()]
