"""The binding compared with include/abr.h: functions with their types, structs, numbers and texts."""

import ast
import ctypes
from pathlib import Path
import re
import unittest
import unittest.mock

import abr
from abr import c

ROOT = Path(__file__).resolve().parents[3]
HEADER = (ROOT / "include/abr.h").read_text()
PACKAGE = Path(abr.__file__).parent

# C's types but for the structs. Octets that a call only reads are passed as bytes.
TYPES = {
    "uint32_t": ctypes.c_uint32,
    "uint64_t": ctypes.c_uint64,
    "int64_t": ctypes.c_int64,
    "size_t": ctypes.c_size_t,
    "double": ctypes.c_double,
    "const uint8_t *": ctypes.c_char_p,
    "uint8_t *": ctypes.POINTER(ctypes.c_uint8),
    "uint32_t *": ctypes.POINTER(ctypes.c_uint32),
    "const uint64_t *": ctypes.POINTER(ctypes.c_uint64),
    "abr_table *": ctypes.POINTER(c.abr_table),
    "const abr_table *": ctypes.POINTER(c.abr_table),
}


def c_type(declared):
    """The type of a declaration without its name."""
    return TYPES.get(declared) or getattr(c, declared)


def prototypes():
    """Of each function of the header what it returns and its arguments."""
    found = {}
    for returned, name, arguments in re.findall(r"^(?:ABR_MUST_USE )?(\w+) (abr_\w+)\((.*)\);$", HEADER, re.M):
        declared = [] if arguments == "void" else [re.sub(r"\w+$", "", each).strip() for each in arguments.split(", ")]
        found[name] = (c_type(returned), [c_type(each) for each in declared])
    return found


def structs():
    """Of each struct of the header the lines of its fields."""
    found = re.findall(r"^typedef struct \{\n(.*?)^\} (abr_\w+);", HEADER, re.M | re.S)
    return {name: body for body, name in found}


def editions():
    """The editions of the header: of each number of connections the most comparisons and the words of a table."""
    chain = re.findall(r"^#(?:el)?if ABR_CONNECTIONS == (\d+)\n#define ABR_COMPARISONS_MAX (\d+)u$", HEADER, re.M)
    lines = re.sub(r"\b(\d+)u\b", r"\1", HEADER).replace("/", "//")
    parts = re.findall(r"^#define (ABR_TABLE_(?:GROUPS|HEADER|WORDS)) (.*)$", lines, re.M)
    found = {}
    for number, most in chain:
        values = {"ABR_CONNECTIONS_MAX": int(number)}
        for name, formula in parts:
            values[name] = eval(formula, values)
        found[int(number)] = (int(most), values["ABR_TABLE_WORDS"])
    return found


def defined(prefix=""):
    """The numbers that the header defines under names with a prefix, and the comment beside each."""
    number = r"(?:UINT64_C\()?(0x[0-9A-Fa-f]+|\d+)[u)]"
    lines = re.findall(rf"^#define ABR_{prefix}(\w+) {number}(?: +/\* (.*) \*/)?$", HEADER, re.M)
    return {name: (int(digits, 0), comment) for name, digits, comment in lines}


def number(version):
    """A version, three numbers, as one."""
    major, minor, patch = map(int, version.split("."))
    return major << 16 | minor << 8 | patch


def find(name):
    """A call of the binding, of a table or without one."""
    return getattr(abr.Table, name, None) or getattr(abr, name)


def public(tree):
    """The functions, classes and methods of a file whose names anybody may use, without the structs of C."""
    kinds = (ast.FunctionDef, ast.ClassDef)
    return [node for node in ast.walk(tree) if isinstance(node, kinds) and not node.name.startswith(("_", "abr_"))]


class Header(unittest.TestCase):
    def test_every_function_is_declared_with_its_types_and_no_other(self):
        self.assertEqual(len(prototypes()), len(re.findall(r"^(?!ABR_LAYOUT)[A-Za-z].*\);$", HEADER, re.M)))
        self.assertEqual(prototypes(), c.FUNCTIONS)

    def test_every_function_is_called_by_the_binding(self):
        called = set()
        for path in PACKAGE.glob("*.py"):
            for node in ast.walk(ast.parse(path.read_text())):
                if isinstance(node, ast.Attribute) and node.attr.startswith("abr_"):
                    called.add(node.attr)
        self.assertEqual(called | {"abr_version", "abr_table_words"}, set(prototypes()))

    def test_every_call_has_a_docstring(self):
        others = {"abr_import": abr.import_rate, "abr_house": abr.Params.house}
        calls = [name for name in prototypes() if name not in ("abr_version", "abr_table_words")]
        offered = {name: others.get(name) or find(name.removeprefix("abr_")) for name in calls}
        self.assertEqual([name for name, each in offered.items() if len(each.__doc__ or "") < 12], [])
        self.assertEqual(len({each.__doc__ for each in offered.values()}), len(prototypes()) - 2)

    def test_all_that_is_offered_has_a_docstring(self):
        found = [node for path in PACKAGE.glob("*.py") for node in public(ast.parse(path.read_text()))]
        self.assertGreater(len(found), 60)
        self.assertEqual([node.name for node in found if not ast.get_docstring(node)], [])

    def test_every_struct_has_its_fields_in_order(self):
        self.assertEqual(len(structs()), HEADER.count("typedef struct"))
        self.assertEqual(set(structs()), {name for name in vars(c) if name.startswith("abr_")})
        for name, body in structs().items():
            fields = re.findall(r"^    (\w+) (\w+)(?:\[(\w+)\])?;", body, re.M)
            typed = [(field, c_type(kind), count) for kind, field, count in fields]
            expected = [(field, kind * abr.TABLE_WORDS if count else kind) for field, kind, count in typed]
            self.assertEqual(getattr(c, name)._fields_, expected, name)

    def test_sizes_and_offsets_are_those_of_c(self):
        sizes = re.findall(r"^ABR_LAYOUT\(\w+, sizeof\((\w+)\) == ([\w* ]+)\);", HEADER, re.M)
        self.assertEqual(sorted(name for name, _ in sizes), sorted(structs()))
        for name, size in sizes:
            expected = 8 * abr.TABLE_WORDS if name == "abr_table" else int(size)
            self.assertEqual(ctypes.sizeof(getattr(c, name)), expected, name)
        offsets = re.findall(r"^ABR_LAYOUT\(\w+, offsetof\((\w+), (\w+)\) == (\d+)\);", HEADER, re.M)
        self.assertGreater(len(offsets), 20)
        for name, field, offset in offsets:
            self.assertEqual(getattr(getattr(c, name), field).offset, int(offset), f"{name}.{field}")

    def test_the_editions(self):
        comparisons = {connections: most for connections, (most, _) in editions().items()}
        self.assertEqual(comparisons, {16: 4, 64: 6, 256: 8, 1024: 10})
        self.assertEqual(editions()[abr.CONNECTIONS_MAX], (abr.COMPARISONS_MAX, abr.TABLE_WORDS))
        self.assertEqual(len({words for _, words in editions().values()}), 4)  # abr_matches tells them apart
        manual = (ROOT / "docs/MANUAL.md").read_text()
        for connections, (comparisons, words) in editions().items():
            row = f"| {connections:,} | {comparisons} | {8 * words:,} |"
            self.assertTrue(f"\n{row}" in manual, f"{row} in MANUAL.md")

    def test_the_constants(self):
        others = ("REFUSED_", "RULE_", "SENT_", "RECEIVED_", "HOUSE_")
        numbers = {name: number for name, (number, _) in defined().items() if not name.startswith(others)}
        for name in ("OK", "CELL_DATA", "CELL_RM", "CHANNEL", "PATH", "MEMBER", "COMPARISONS_MAX"):
            del numbers[name]
        self.assertGreater(len(numbers), 20)
        constants = {name: value for name, value in vars(abr.constants).items() if name.isupper()}
        self.assertEqual(constants, numbers)

    def test_the_refusals_with_their_texts(self):
        self.assertEqual(defined("REFUSED_"), {each.name: (each.value, each.text) for each in abr.Refusal})

    def test_kinds_and_rules(self):
        sent = {name: number for name, (number, _) in defined("SENT_").items() if name != "IDLE"}
        self.assertEqual(sent, {each.name: each.value for each in abr.Kind})
        received = {name: number for name, (number, _) in defined("RECEIVED_").items()}
        self.assertEqual(received, {each.name: each.value for each in abr.ReceivedKind})
        pairs = {name: defined()[name][0] for name in ("CHANNEL", "PATH", "MEMBER")}
        self.assertEqual(pairs, {each.name: each.value for each in abr.ConnectionKind})
        rules = {name: number for name, (number, _) in defined("RULE_").items() if name != "NONE"}
        self.assertEqual(rules, {each.name: each.value for each in abr.Rule})
        self.assertEqual(defined("CELL_")["RM"][0], abr.cell.RM)

    def test_the_house_set(self):
        house = abr.Params.house(3, 2, 1)
        self.assertEqual((house.pcr, house.mcr, house.icr), (3, 2, 1))
        for name, (number, _) in defined("HOUSE_").items():
            self.assertEqual(getattr(house, name.lower()), number, name)


class Loading(unittest.TestCase):
    def test_another_version_is_not_loaded(self):
        with unittest.mock.patch.object(c, "VERSION", abr.VERSION + (1 << 8)):
            self.assertRaisesRegex(ImportError, "another version", c.load, c.path())
        with unittest.mock.patch.object(c, "VERSION", abr.VERSION + 1):
            c.load(c.path())

    def test_the_versions_that_serve_are_those_of_the_header(self):
        record = (ROOT / "tests/interface/1.0.txt").read_text()
        pairs = re.findall(r"^matches header ([\d.]+), library ([\d.]+): (yes|no)$", record, re.M)
        self.assertEqual(len(pairs), record.count("\nmatches header "))
        self.assertGreater(len(pairs), 12)
        for header, library, answer in pairs:
            with unittest.mock.patch.object(c, "VERSION", number(header)):
                self.assertEqual(c.serves(number(library)), answer == "yes", (header, library))

    def test_where_the_shared_object_is_looked_for(self):
        with unittest.mock.patch.dict("os.environ", {"ABR_SHARED": "x/y.so"}):
            self.assertEqual(c.path(), "x/y.so")
        with unittest.mock.patch.dict("os.environ"):
            c.os.environ.pop("ABR_SHARED", None)
            version = re.search(r"^/\* (\d+)\.\d+\.\d+: major", HEADER, re.M)[1]
            self.assertEqual(c.path(), f"libabr.so.{version}")
