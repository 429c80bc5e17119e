#!/usr/bin/env python3
"""Turns names from camel case to snake case, once: the port of docs/PORT.md ran it after port.py.

usage: snake_own_names.py FOLDER..

In each .antt and .rt file and each must-fail edit below a FOLDER, a name whose first letter is small is written in
snake case, part by part between dashes: rateOf is rate_of, putFrom-sets is put_from-sets. A part that begins with a
capital is a type or a variant and stays. Text between double quotes stays. It prints names that fall together in a
file of definitions or proofs, and then writes nothing. A second run would turn LEMMAS once more.
"""

import os
import re
import sys

NAME = re.compile(r"\"(?:[^\"\\\n]|\\.)*\"|(?<![\w'₀-₉.-])[A-Za-z_][\w'₀-₉-]*|(?<=\.)[A-Za-z_][\w'₀-₉-]*")
HUMP = re.compile(r"(?<=[a-z0-9₀-₉])(?=[A-Z])")

# Lemmas and local facts that would fall together with a definition of their file.
LEMMAS = {
    "went_to": "proofs/",
    "is_open": "proofs/",
    "is_free": "proofs/",
    "is_member": "exports_answers/proofs/Status.antt exports_cells/proofs/Addresses.antt",
    "opened_with": "exports_answers/proofs/Leaves.antt",
    "in_leaf": "exports_answers/proofs/Status.antt",
    "out_of_range": "exports_answers/proofs/Status.antt",
    "read_name": "exports_rates/proofs/Interference.antt",
    "not_late": "promise_delivery/proofs/Served.antt",
    "at_slot": "promise_delivery/proofs/Total.antt",
    "number_at": "trace/proofs/reader/read/Proof.antt",
}
# Fields of two records: no name stands for the other.
FIELDS = {("exports_answers/specs/Status.antt", "lastMade"), ("exports_answers/specs/Status.antt", "lastOutOfRate")}


def apart(path, text):
    """The text with each of LEMMAS as NAME_lem, where it is no field and no part of a path."""
    for name, where in LEMMAS.items():
        if path.endswith(".antt") and any(w in path for w in where.split()):
            text = re.sub(rf"(?<![\w'.-]){name}(?![\w'-])", name + "_lem", text)
    return text


def snake(name):
    if name.startswith('"'):
        return name
    return "-".join(
        HUMP.sub("_", part).lower() if part[:1].islower() and HUMP.search(part) else part for part in name.split("-")
    )


def files(folders):
    for folder in folders:
        for at, inner, names in os.walk(folder):
            inner[:] = sorted(d for d in inner if d != "out")
            yield from (os.path.join(at, n) for n in sorted(names) if n.endswith((".antt", ".rt", ".edit")))


def main(folders):
    texts, turned, together = {}, set(), False
    for path in files(folders):
        with open(path, encoding="utf-8") as it:
            texts[path] = apart(path, it.read())
        code = re.sub(r"--[^\n]*", "", texts[path])
        here = {m[0] for m in NAME.finditer(code) if code[m.start() - 1 : m.start()] != "."}
        camel = {n for n in here if snake(n) != n}
        turned |= camel
        for n in sorted(camel):
            known = any(path.endswith(p) and n == f for p, f in FIELDS)
            twin = snake(n) in here or any(snake(o) == snake(n) and o != n for o in camel)
            if path.endswith(".antt") and not known and twin:
                print(f"{path}: {n} and {snake(n)} fall together")
                together = True
    if together:
        return 1
    for path, text in texts.items():
        new = NAME.sub(lambda m: snake(m[0]), text)
        with open(path, encoding="utf-8") as it:
            old = it.read()
        if new != old:
            with open(path, "w", encoding="utf-8") as it:
                it.write(new)
    print(f"{len(turned)} names in {len(texts)} files")
    return 0


if __name__ == "__main__":
    raise SystemExit(main(sys.argv[1:]))
