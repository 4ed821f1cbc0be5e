"""python3 -m unittest discover -s tools/lib/tests     from the top of the repository"""
import contextlib
import io
import os
import sys
import unittest

sys.path.insert(0, os.path.dirname(os.path.dirname(os.path.dirname(os.path.abspath(__file__)))))
from lib import format_page, runs, scripts

PAGE = """
### HDR: transmission header

| # | start | width | field | type |
|---|---|---|---|---|
| 1 | 0 | 3 | record type | the letters HDR |
| 2 | 3 | 2 | sender type | code SenderType |

### Every record inside a transaction

| # | start | width | field | type |
|---|---|---|---|---|
| 1 | 0 | 3 | record type | its letters |
| 2 | 3 | 8 | transaction sequence | derived number |

### SPU and OPU: publishers

| # | start | width | field | type |
|---|---|---|---|---|
| 3 | 11 | 9 | number | required text, in OPU text |

### Carried records

| # | start | width | field | type |
|---|---|---|---|---|
| 3 | 11 | 20 | text | text |

**Carried records** are MSG and NPN. NOT this one.

- "Tail" is ALT, EWT.

| SenderType | 2 | `PB`, `SO` |
"""


class FormatPage(unittest.TestCase):
    def test_layouts(self):
        found = format_page.layouts(PAGE)
        self.assertEqual([*found], ["HDR", "SPU", "OPU", "MSG", "NPN"])
        self.assertEqual([field.name for field in found["NPN"]], ["record type", "transaction sequence", "text"])
        self.assertEqual(found["HDR"][1], (2, 3, 2, "sender type", "code SenderType"))
        self.assertEqual([field.type for field in (found["SPU"][2], found["OPU"][2])], ["required text", "text"])
        self.assertEqual([(field.is_made, field.is_derived) for field in found["OPU"]], [(True, False), (True, True), (False, False)])

    def test_lists(self):
        self.assertEqual(format_page.carried_kinds(PAGE), ["MSG", "NPN"])
        self.assertEqual(format_page.tail_kinds(PAGE), ["ALT", "EWT"])
        self.assertEqual(format_page.tables(PAGE), {"SenderType": ["PB", "SO"]})

    def test_page(self):
        found = format_page.layouts()
        self.assertEqual(len(found), 40)
        for kind, fields in found.items():
            ends = [field.start + field.width for field in fields]
            self.assertEqual([field.start for field in fields], [0, *ends[:-1]], kind)
            self.assertEqual([field.number for field in fields], [*range(1, len(fields) + 1)], kind)


class Runs(unittest.TestCase):
    def test_run(self):
        self.assertEqual(runs.run("-c", "cat; echo said >&2; exit 3", stdin=b"it", program="/bin/sh"), (3, b"it", b"said\n"))

    def test_differences(self):
        differences = runs.Differences()
        differences.expect("same", 1, 1)
        self.assertEqual(differences.told("it"), 0)
        differences.expect("other", 1, 2)
        with contextlib.redirect_stdout(io.StringIO()) as printed:
            self.assertEqual(differences.told("it"), 1)
        self.assertEqual(printed.getvalue(), "it: other: 1, and not 2\n")

    def test_hold(self):
        differences = runs.Differences()
        differences.hold("so", True)
        self.assertEqual(differences.found, [])
        differences.hold("not so", False)
        differences.hold("not so", False)
        with contextlib.redirect_stdout(io.StringIO()) as printed:
            self.assertEqual(differences.told("it"), 1)
        self.assertEqual(printed.getvalue(), "it: not so\n")


class Scripts(unittest.TestCase):
    def test_script(self):
        self.assertEqual(scripts.script("side_by_side").LEFT_OUT.findall("page: left out: all\n"), [("page", "all")])


if __name__ == "__main__":
    unittest.main()
