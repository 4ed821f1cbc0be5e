"""The package over the samples and over changed texts, held against the program.

Run from anywhere, by the standard library alone (`python3 -m unittest discover bindings/python/tests`) or by pytest. PROGRAM
is the program (crates/cwr/out/cwr), and SEED and COUNT change what is tried.
"""
import collections
import concurrent.futures
import datetime
import glob
import os
import pathlib
import pickle
import random
import subprocess
import sys
import tempfile
import threading
import unittest
from decimal import Decimal
from unittest import mock

HERE = os.path.dirname(os.path.abspath(__file__))
TOP = os.path.dirname(os.path.dirname(os.path.dirname(HERE)))
if not os.environ.get("INSTALLED"):
    sys.path.insert(0, os.path.dirname(HERE))

import cwr  # noqa: E402

PROGRAM = os.path.abspath(os.environ.get("PROGRAM", os.path.join(TOP, "crates", "cwr", "out", "cwr")))
SAMPLES = sorted(glob.glob(os.path.join(TOP, "samples", "*", "*.cwr")))
EVERY_KIND = os.path.join(TOP, "samples", "good", "every_kind.cwr")
WORKS = os.path.join(TOP, "samples", "good", "works.cwr")


def run(*words, text=None):
    """What the program writes."""
    return subprocess.run([PROGRAM, *words], input=text, capture_output=True, check=False)


def changed(text, draw):
    """A text with a few changes: bytes replaced, parts left out, lines twice, its end cut off."""
    text = bytearray(text)
    for _ in range(draw.randint(1, 3)):
        if not text:
            break
        at = draw.randrange(len(text))
        how = draw.randrange(4)
        if how == 0:
            text[at] = draw.choice(b" 019AZ\r\n\x00\xff")
        elif how == 1:
            del text[at : at + draw.randrange(40)]
        elif how == 2:
            start = text.rfind(b"\n", 0, at) + 1
            end = text.find(b"\n", at) + 1 or len(text)
            text[start:start] = text[start:end]
        else:
            del text[at : len(text) if draw.randrange(4) == 0 else at + 1]
    return bytes(text)


class Samples(unittest.TestCase):
    """Each sample is answered as the program answers it."""

    def test_samples_are_there(self):
        self.assertGreater(len(SAMPLES), 30)

    def test_verdict_is_the_programs_last_line(self):
        for name in SAMPLES:
            told = run("check", name).stdout.decode().splitlines()[-1]
            self.assertEqual(str(cwr.check(name)), told, name)
            document = cwr.Document(name)
            self.assertEqual(str(document.verdict), told)
            with open(name, "rb") as it:
                self.assertEqual(str(cwr.check(bytearray(it.read()))), told)

    def test_reports_are_what_the_program_writes(self):
        reports = [
            (cwr.report, ["check"], "latin-1"),
            (cwr.show, ["show"], "latin-1"),
            (cwr.explain, ["explain"], "utf-8"),
            (cwr.lint, ["lint"], "utf-8"),
            (lambda it: cwr.lint(it, explained=True), ["lint", "--explain"], "utf-8"),
            (cwr.to_json, ["json"], "utf-8"),
            (lambda it: cwr.to_json(it, numbers=True), ["json", "--numbers"], "utf-8"),
        ]
        for name in SAMPLES:
            for call, words, coding in reports:
                self.assertEqual(call(name).encode(coding), run(*words, name).stdout, (words, name))

    def test_findings_are_those_that_a_check_prints(self):
        for name in SAMPLES:
            lines = [it for it in cwr.report(name).splitlines() if it.startswith("FINDING")]
            found = cwr.findings(name)
            self.assertEqual([it.split()[9:] for it in lines], [["level", it.level.value, "rule", it.rule] for it in found])
            document = cwr.Document(name)
            starts = {}
            for transaction in document:
                in_group = sum(1 for group, _ in starts if group == transaction.group)
                self.assertEqual(transaction.place, (transaction.group, in_group), name)
                starts[transaction.place] = transaction.first
            for line, it in zip(lines, found):
                words = line.split()
                first = starts[(int(words[2]), int(words[4]))]
                self.assertEqual(it.record, first + int(words[6]))
                self.assertEqual(it.field, int(words[8]))

    def test_records_are_those_that_a_show_prints(self):
        for name in SAMPLES:
            document = cwr.Document(name)
            if document:
                shown = run("show", name).stdout.decode("latin-1").splitlines()
                kinds = [it.split()[1] for it in shown if it[0].isdigit()]
                self.assertEqual([it.kind for it in document.records()], kinds, name)

    def test_canonical_text_is_that_of_a_join(self):
        with tempfile.TemporaryDirectory() as folder:
            for name in SAMPLES:
                document = cwr.Document(name)
                if not document:
                    continue
                out = os.path.join(folder, "joined")
                self.assertEqual(run("join", out, name).returncode, 0)
                with open(out, "rb") as it:
                    joined = it.read()
                self.assertEqual(cwr.write(document.records()), joined, name)
                self.assertEqual(cwr.from_json(cwr.to_json(name)), joined, name)

    def test_an_error_names_the_place(self):
        name = os.path.join(TOP, "samples", "refused", "wrong_code.cwr")
        with self.assertRaises(cwr.RefusedError) as caught:
            cwr.read(name)
        self.assertTrue(str(caught.exception).endswith("record 5 (NWR), field 10 (distribution category), level T: cell not a code"))
        self.assertEqual(caught.exception.verdict.record, 5)
        for name, words in (
            ("refused/empty_line.cwr", "record 3 (an empty line), field 1, level G: unknown kind"),
            ("refused/gzip.cwr", "; this is a gzip file: unpack it"),
            ("refused/byte_order_mark.cwr", "; the line begins with a byte order mark (EF BB BF): save the file without it"),
            ("refused/cut_off.cwr", "; the last line has no line end and 87 of 159 bytes: the file may have been cut off"),
        ):
            with self.assertRaises(cwr.Error) as caught:
                cwr.read(os.path.join(TOP, "samples", name))
            self.assertIn(words, str(caught.exception))
        for name in SAMPLES:
            verdict = cwr.check(name)
            if verdict.ending is cwr.Ending.GOOD:
                cwr.read(name)
            else:
                kind = cwr.RefusedError if verdict.ending is cwr.Ending.REFUSED else cwr.TruncatedError
                with self.assertRaises(kind) as caught:
                    cwr.read(name)
                self.assertEqual(caught.exception.verdict, cwr.Document(name).verdict)


def refusal(name):
    """The error of a sample that isn't good."""
    try:
        cwr.read(name)
    except cwr.Error as error:
        return error
    return None


class Errors(unittest.TestCase):
    """What is raised."""

    def test_an_error_comes_from_another_process_as_it_was(self):
        errors = [it for it in map(refusal, SAMPLES) if it] + [cwr.WriteError("record 2 (NWR) can't come there", 2)]
        for error in errors:
            again = pickle.loads(pickle.dumps(error))
            self.assertEqual((type(again), str(again), vars(again)), (type(error), str(error), vars(error)))
        with concurrent.futures.ProcessPoolExecutor(1) as pool:
            with self.assertRaises(cwr.RefusedError) as caught:
                pool.submit(cwr.read, os.path.join(TOP, "samples", "refused", "gzip.cwr")).result(60)
            self.assertEqual(caught.exception.notes, ("this is a gzip file: unpack it",))
            self.assertEqual(pool.submit(cwr.check, WORKS).result(60), cwr.check(WORKS))

    def test_a_document_comes_from_another_process_as_it_was(self):
        for mapped in (False, True):
            document = cwr.Document(os.path.join(TOP, "samples", "good", "every_kind.cwr"), mapped=mapped)
            again = pickle.loads(pickle.dumps(document))
            self.assertEqual((again.verdict, repr(again), list(again)), (document.verdict, repr(document), list(document)))

    def test_what_is_no_source(self):
        with open(WORKS, encoding="ascii") as it:
            text = it.read()
        for source, words in (
            (text, "hand in text.encode('latin-1')"),
            (text[:90], "hand in text.encode('latin-1')"),
            (None, "a source is a path or bytes, and not None"),
            (5, "a source is a path or bytes, and not int"),
        ):
            for call in (cwr.check, cwr.read, cwr.findings, cwr.explain):
                with self.assertRaises(TypeError) as caught:
                    call(source)
                self.assertIn(words, str(caught.exception))
        with self.assertRaises(FileNotFoundError):
            cwr.check("nothing.V21")
        for call in (cwr.write, cwr.from_json):
            for given in (None, 5, [None] if call is cwr.write else 0.5):
                with self.assertRaises(TypeError) as caught:
                    call(given)
                self.assertIn(" and not ", str(caught.exception))
        with self.assertRaises(TypeError):
            cwr.write(text)


class Records(unittest.TestCase):
    """Records and their cells."""

    def test_each_kind_has_its_layout(self):
        self.assertEqual(len(cwr.KINDS), 40)
        for kind in cwr.KINDS:
            fields = cwr.layout(kind)
            self.assertEqual(fields[0].name, "record type")
            self.assertEqual([it.start for it in fields[1:]], [it.start + it.width for it in fields[:-1]])
            line = cwr.Record(kind).line
            self.assertEqual((line[:3].decode(), len(line)), (kind, fields[-1].start + fields[-1].width))
        with self.assertRaises(KeyError):
            cwr.layout("XYZ")
        with self.assertRaises(KeyError):
            cwr.Record("\u2026")

    def test_layouts_are_those_of_the_page(self):
        with open(os.path.join(TOP, "docs", "FORMAT.md"), encoding="utf-8") as it:
            page = it.read()
        for kind in cwr.KINDS:
            for field in cwr.layout(kind)[1:]:
                self.assertIn(field.name, page)

    def test_codes_are_those_of_their_fields(self):
        codes = {(kind, it.name): it.codes for kind in cwr.KINDS for it in cwr.layout(kind) if it.codes}
        self.assertEqual(codes["GRH", "transaction type"], ("AGR", "NWR", "REV", "ACK"))
        self.assertEqual(codes["HDR", "sender type"], ("PB", "SO", "AA", "WR"))
        self.assertEqual(codes["HDR", "edi standard version"], ("01.10",))
        self.assertEqual(codes["NWR", "recorded"], ("Y", "N", "U"))
        listed = (cwr.Type.CODE, cwr.Type.OPTIONAL_CODE, cwr.Type.FLAG, cwr.Type.CONSTANT)
        for kind in cwr.KINDS:
            for field in cwr.layout(kind):
                self.assertEqual(bool(field.codes), field.type in listed and not field.derived, (kind, field))

    def test_values(self):
        record = cwr.Record("SWR", {"last name": "DOE", "pr share": Decimal("33.05"), "writer unknown": False, "mr share": 50})
        self.assertEqual(record["pr share"], "03305")
        self.assertEqual(record["mr share"], "05000")
        self.assertEqual(record.value("pr share"), Decimal("33.05"))
        self.assertEqual(record.value("writer unknown"), False)
        self.assertIsNone(record.value("sr share"))
        self.assertEqual(record.fields, {"last name": "DOE", "pr share": "03305", "writer unknown": "N", "mr share": "05000"})
        record["pr share"] = None
        self.assertEqual(record["pr share"], "")
        with self.assertRaises(ValueError):
            record["pr share"] = Decimal("0.001")
        with self.assertRaises(ValueError):
            record["last name"] = "x" * 46
        with self.assertRaises(KeyError):
            record["nothing"] = ""
        work = cwr.Record("NWR", {"duration": datetime.timedelta(minutes=3, seconds=20), "copyright date": datetime.date(2024, 2, 29)})
        self.assertEqual((work["duration"], work["copyright date"]), ("000320", "20240229"))
        self.assertEqual(work.value("duration"), datetime.timedelta(seconds=200))
        self.assertEqual(work.value("copyright date"), datetime.date(2024, 2, 29))
        work["copyright date"] = "00000000"
        self.assertIsNone(work.value("copyright date"))
        head = cwr.Record("HDR", {"creation time": datetime.time(10, 15)})
        self.assertEqual(head.value("creation time"), datetime.time(10, 15))
        self.assertEqual(head["edi standard version"], "01.10")

    def test_cells_of_a_type(self):
        record = cwr.Record("SWR", {"pr share": Decimal("33.05"), "writer unknown": True})
        work = cwr.Record("NWR", {"copyright date": datetime.date(2024, 2, 29), "title": "A"})
        self.assertEqual((record.share("pr share"), record.share("mr share")), (Decimal("33.05"), None))
        self.assertEqual((work.date("copyright date"), cwr.Record("NWR").date("copyright date")), (datetime.date(2024, 2, 29), None))
        self.assertEqual((work.number("transaction sequence"), cwr.read(WORKS)[0].header.number("transaction sequence")), (None, 0))
        for record, call, name in ((record, "share", "last name"), (work, "date", "title"), (work, "number", "copyright date"), (work, "share", "duration")):
            with self.assertRaises(TypeError):
                getattr(record, call)(name)
        with self.assertRaises(KeyError):
            work.share("nothing")

    def test_a_cell_takes_what_is_of_its_type(self):
        values = {
            "share": [50, Decimal("0.01")], "number": [7], "date": [datetime.date(2024, 2, 29)], "time": [datetime.time(1, 2)],
            "duration": [datetime.timedelta(minutes=3)], "flag": [True, False], "text": [], None: [0.5, b"A", [], datetime.tzinfo()],
        }
        fields = {
            "share": ("SWR", "pr share"), "number": ("GRH", "group id"), "date": ("NWR", "copyright date"), "time": ("HDR", "creation time"),
            "duration": ("NWR", "duration"), "flag": ("SWR", "writer unknown"), "text": ("NWR", "title"),
        }
        for sort, (kind, name) in fields.items():
            record = cwr.Record(kind, {name: None})
            record[name] = ""
            for of, some in values.items():
                for value in some:
                    # an int is a share, in percent, or a number
                    if of == sort or (type(value) is int and sort in ("share", "number")):
                        record[name] = value
                        self.assertEqual(record.value(name), value)
                    else:
                        with self.assertRaises(TypeError, msg=(kind, name, value)) as caught:
                            record[name] = value
                        self.assertIn(name, str(caught.exception))
        for kind, name, value in (("SWR", "pr share", -1), ("SWR", "pr share", Decimal("NaN")), ("GRH", "group id", -1), ("NWR", "duration", -datetime.timedelta(1))):
            with self.assertRaises(ValueError):
                cwr.Record(kind, {name: value})

    def test_what_is_no_cell_of_its_type(self):
        record = cwr.Record("SWR", {"last name": "DOE", "pr share": "33.33"})
        with self.assertRaisesRegex(ValueError, "^SWR pr share: '33.33' isn't a share$"):
            record.share("pr share")
        with self.assertRaisesRegex(ValueError, "^SWR pr share: '33.33' isn't a share$"):
            record.value("pr share")
        with self.assertRaisesRegex(ValueError, "^pr share: 101 is more than 100 percent$"):
            record["pr share"] = 101
        with self.assertRaisesRegex(ValueError, "^SWR last name: '日' isn't in ISO 8859-1"):
            record["last name"] = "A 日本"
        self.assertEqual(record["last name"], "DOE")

    def test_every_cell_of_the_samples_has_a_value(self):
        for name in SAMPLES:
            for record in cwr.Document(name).records():
                again = cwr.Record(record.kind, {it: record.value(it) for it in record.fields})
                for it in record.fields:
                    self.assertEqual(again.value(it), record.value(it), (name, record.kind, it))

    def test_a_transmission_from_nothing(self):
        day = datetime.date(2024, 1, 2)
        head = cwr.Record("HDR", {"sender type": "PB", "sender id": "123456789", "sender name": "HOUSE", "creation date": day,
                                  "creation time": datetime.time(1), "transmission date": day})
        group = cwr.Record("GRH", {"transaction type": "NWR"})
        work = cwr.Record("NWR", {"title": "A SONG", "submitter work number": "1", "version type": "ORI"})
        writer = cwr.Record("SWR", {"interested party number": "7", "last name": "DOE", "designation": "CA",
                                    "pr share": 100, "mr share": 100, "sr share": 100})
        text = cwr.write([head, group, work, writer, cwr.Record("GRT")])
        self.assertEqual(str(cwr.check(text)), "GOOD groups 1 transactions 1 records 6")
        [transaction] = cwr.read(text)
        self.assertEqual(transaction.header["title"], "A SONG")
        self.assertEqual(transaction[1].value("pr share"), Decimal(100))
        with self.assertRaises(cwr.WriteError) as caught:
            cwr.write([head, work])
        self.assertEqual(caught.exception.line, 2)
        self.assertIn("record 2 (NWR)", str(caught.exception))
        with self.assertRaises(cwr.WriteError) as caught:
            cwr.write([head])
        self.assertEqual(caught.exception.line, 0)

    def test_a_fault_names_the_record_that_is_not_taken(self):
        kinds = {it.kind: it for it in cwr.read(EVERY_KIND).records()}
        head, rev, nwr, writer, foot = (kinds[it] for it in ("HDR", "REV", "NWR", "SWR", "GRT"))
        of_nwr, of_agr = (cwr.Record("GRH", {**kinds["GRH"].fields, "transaction type": it}) for it in ("NWR", "AGR"))
        bad = {
            "share": cwr.Record("SWR", {**writer.fields, "pr share": "0330X"}),
            "no kind": cwr.Record.of_line(b"XYZ"),
            "excess": cwr.Record.of_line(writer.line.ljust(len(cwr.Record("SWR").line)) + b"x"),
            "empty": cwr.Record.of_line(b""),
        }
        free = cwr.NO_LIMITS
        for records, limits, line, words in (
            ([head, of_nwr, rev, writer, nwr, writer, foot], free, 3, "record 3 (REV) is of another kind than its group's"),
            ([head, nwr, writer, nwr, foot], free, 2, "record 2 (NWR) can't come there"),
            ([head, of_nwr, nwr, writer, nwr, writer, writer], (99, 9, 2), 5, "record 5 (NWR) passes the limit of transaction"),
            ([head, of_agr, kinds["AGR"], foot], free, 3, "record 3 (AGR) begins or ends what isn't whole"),
            ([head, of_nwr, foot], free, 3, "record 3 (GRT) begins or ends what isn't whole"),
            ([head, of_nwr, writer, foot], free, 3, "record 3 (SWR) can't come there"),
            ([head, of_nwr, nwr, bad["share"], foot], free, 4, "record 4 (SWR) carries no record, field 12 (pr share): cell not digits"),
            ([head, of_nwr, nwr, bad["no kind"], foot], free, 4, "record 4 (XYZ) carries no record, field 1: unknown kind"),
            ([head, of_nwr, nwr, bad["excess"], foot], free, 4, f"record 4 (SWR) carries no record, field {len(cwr.layout('SWR')) + 1}: excess"),
            ([head, of_nwr, nwr, bad["empty"], foot], free, 4, "record 4 () carries no record, field 1: unknown kind"),
        ):
            with self.assertRaises(cwr.WriteError) as caught:
                cwr.write(records, limits=limits)
            self.assertEqual((caught.exception.line, str(caught.exception)), (line, words))

    def test_numbers_are_made(self):
        records = list(cwr.read(EVERY_KIND).records())
        with open(EVERY_KIND, "rb") as it:
            text = it.read()
        for record in records:
            for field in cwr.layout(record.kind)[1:]:
                if field.derived:
                    record[field.name] = "9" * field.width
        self.assertEqual(cwr.write(records), cwr.write(cwr.read(text).records()))
        self.assertEqual(cwr.write(records[:-1]), cwr.write(records))

    def test_json(self):
        self.assertEqual(cwr.from_json(cwr.to_json(EVERY_KIND)), cwr.write(cwr.read(EVERY_KIND).records()))
        with self.assertRaises(cwr.WriteError) as caught:
            cwr.from_json("{}\n")
        self.assertEqual((caught.exception.line, str(caught.exception).startswith("REFUSED line 1")), (1, True))
        with self.assertRaises(cwr.WriteError):
            cwr.from_json("")
        # the lines of a message are those of the text, empty ones too
        first, *others = cwr.to_json(WORKS).splitlines()
        with self.assertRaises(cwr.WriteError) as caught:
            cwr.from_json("\n".join([first, "", "", "{}", *others]))
        told = run("write", text="\n".join([first, "", "", "{}", *others]).encode()).stderr.decode()
        self.assertEqual(str(caught.exception).splitlines()[0], told.splitlines()[0])

    def test_files_are_whole(self):
        with tempfile.TemporaryDirectory() as folder:
            out = os.path.join(folder, "out.V21")
            text = cwr.write(cwr.read(WORKS).records(), path=out)
            with open(out, "rb") as it:
                self.assertEqual(it.read(), text)
            self.assertEqual(os.listdir(folder), ["out.V21"])
            for name in (b"bytes.V21", "path.V21"):
                path = os.path.join(os.fsencode(folder), name) if isinstance(name, bytes) else pathlib.Path(folder, name)
                cwr.write(cwr.read(WORKS), path=path)
                with open(path, "rb") as it:
                    self.assertEqual(it.read(), text)
            self.assertEqual(sorted(os.listdir(folder)), ["bytes.V21", "out.V21", "path.V21"])

    def test_a_fault_leaves_no_part(self):
        with tempfile.TemporaryDirectory() as folder:
            with self.assertRaises(OSError):
                cwr.write(cwr.read(WORKS), path=folder)
            for call in ("os.replace", "os.fsdecode"):
                with mock.patch(f"cwr._writing.{call}", side_effect=OSError("no room")):
                    with self.assertRaises(OSError):
                        cwr.from_json(cwr.to_json(WORKS), path=os.path.join(folder, "out.V21"))
            self.assertEqual(os.listdir(folder), [])
            # another run's part stays
            other = os.path.join(folder, "out.V21.part")
            open(other, "wb").close()
            with self.assertRaises(FileExistsError):
                cwr.write(cwr.read(WORKS), path=os.path.join(folder, "out.V21"))
            self.assertEqual(os.listdir(folder), ["out.V21.part"])

    def test_a_document_is_the_sequence_of_its_transactions(self):
        for name in SAMPLES:
            for mapped in (False, True):
                document = cwr.Document(name, mapped=mapped)
                all_of_them = list(document)
                self.assertEqual(len(document), len(all_of_them), name)
                self.assertEqual([document[i] for i in range(len(document))], all_of_them)
                about = [(it.group, it.place, it.number, it.first) for it in all_of_them]
                self.assertEqual([(it.group, it.place, it.number, it.first) for it in document[:]], about)
                self.assertEqual(document[-1:], all_of_them[-1:])
                self.assertEqual(repr(document), f"<Document {name!r}: {document.verdict}>")
                for at in (len(document), -len(document) - 1):
                    with self.assertRaises(IndexError):
                        document[at]
                if document:
                    self.assertEqual(cwr.write(document), cwr.write(document.records()))

    def test_the_version_is_the_programs(self):
        self.assertEqual(run("--version").stderr.decode(), f"cwr {cwr.__version__}\n")


class Texts(unittest.TestCase):
    """Sources, limits, and what may be handed in."""

    def test_empty(self):
        for source in (b"", bytearray(), memoryview(b"")):
            self.assertEqual(str(cwr.check(source)), "TRUNCATED records 0")
            self.assertEqual(list(cwr.Document(source)), [])
            with self.assertRaises(cwr.TruncatedError):
                cwr.read(source)
            self.assertEqual(cwr.findings(source), [])
            self.assertTrue(cwr.explain(source).startswith("TRUNCATED records 0\n"))

    def test_mapped(self):
        with tempfile.TemporaryDirectory() as folder:
            empty = os.path.join(folder, "empty")
            open(empty, "wb").close()
            self.assertEqual(str(cwr.check(empty, mapped=True)), "TRUNCATED records 0")
        for name in SAMPLES:
            self.assertEqual(cwr.check(name, mapped=True), cwr.check(name))
            self.assertEqual([it.line for it in cwr.Document(name, mapped=True).records()], [it.line for it in cwr.Document(name).records()])

    def test_limits(self):
        self.assertEqual(cwr.check(EVERY_KIND, limits=(5, 1, 1)).reason, "limit records")
        for limits in ((4, 1, 1), (5, 0, 1), (5, 1, 0), (10**8, 1, 1), (-1, 1, 1), (2**32 + 5, 1, 1)):
            with self.assertRaises(ValueError):
                cwr.check(EVERY_KIND, limits=limits)
            with self.assertRaises(ValueError):
                cwr.Document(EVERY_KIND, limits=limits)
            with self.assertRaises(ValueError):
                cwr.write([], limits=limits)

    def test_a_source_that_changes_later(self):
        with open(WORKS, "rb") as it:
            text = bytearray(it.read())
        document = cwr.read(text)
        before = [it.line for it in document.records()]
        text[:] = b""
        self.assertEqual([it.line for it in document.records()], before)

    def test_many_line_feeds_take_little_memory(self):
        self.assertEqual(cwr.Document(b"\n" * 10_000_000).verdict.record, 1)

    def test_threads(self):
        told = {name: str(cwr.check(name)) for name in SAMPLES}
        wrong = []

        def walk():
            for name in SAMPLES * 5:
                if str(cwr.check(name)) != told[name] or str(cwr.Document(name).verdict) != told[name]:
                    wrong.append(name)

        threads = [threading.Thread(target=walk) for _ in range(4)]
        for it in threads:
            it.start()
        for it in threads:
            it.join()
        self.assertEqual(wrong, [])


class Changed(unittest.TestCase):
    """Changed texts: the calls agree with each other and with the program."""

    def test_changed_texts(self):
        draw = random.Random(int(os.environ.get("SEED", "1")))
        texts = []
        for name in SAMPLES:
            with open(name, "rb") as it:
                texts.append(it.read())
        asked = 0
        for i in range(int(os.environ.get("COUNT", "3000"))):
            text = changed(draw.choice(texts), draw)
            verdict, document = cwr.check(text), cwr.Document(text)
            self.assertEqual(verdict, document.verdict, text)
            self.assertEqual(document.record_count, verdict.record - 1 if verdict.ending is cwr.Ending.REFUSED else verdict.records)
            self.assertEqual(len(document), len(list(document)), text)
            if verdict:
                again = cwr.write(document.records())
                self.assertEqual(str(cwr.check(again)), str(verdict))
                self.assertEqual(cwr.write(cwr.read(again).records()), again)
            if i % 20 == 0:
                asked += 1
                self.assertEqual(cwr.report(text).encode("latin-1"), run("check", "-", text=text).stdout, text)
        self.assertGreater(asked, 0)


class Selecting(unittest.TestCase):
    """Some transactions of a transmission, as one of their own."""

    def expected(self, document, chosen):
        """The records of the transactions in these places: of each group that has any its GRH, and a GRT that is blank where some are left out."""
        records, group, number = [document.record(1)], [], 0
        for record in document.records():
            if record.kind == "GRH":
                group, number = [record], number + 1
            elif record.kind == "GRT":
                of_group = [it for it in document if it.group == number]
                kept = [it for it in of_group if it.place in chosen]
                if kept:
                    records += [*group, *kept, record if len(kept) == len(of_group) else cwr.Record("GRT")]
        return cwr.write(records)

    def test_any_transactions_of_samples(self):
        draw = random.Random(int(os.environ.get("SEED", "1")))
        for name in SAMPLES:
            document = cwr.Document(name)
            if not document:
                continue
            places = [it.place for it in document]
            self.assertEqual(cwr.select(name, lambda _: True), cwr.write(document.records()), name)
            self.assertEqual(cwr.select(name, lambda _: False), b"", name)
            for _ in range(5):
                chosen = {it for it in places if draw.random() < 0.5}
                text = cwr.select(name, lambda it: it.place in chosen)
                self.assertEqual(text, self.expected(document, chosen) if chosen else b"", (name, chosen))
                if chosen:
                    self.assertEqual(len(cwr.read(text)), len(chosen))
                    self.assertEqual(cwr.select(text, lambda _: True), text)

    def test_a_file_is_written_where_something_is_chosen(self):
        with tempfile.TemporaryDirectory() as folder:
            path = os.path.join(folder, "out.V21")
            self.assertEqual(cwr.select(WORKS, lambda _: False, path=path), b"")
            self.assertEqual(os.listdir(folder), [])
            text = cwr.select(WORKS, lambda it: it.place == cwr.read(WORKS)[0].place, path=path)
            with open(path, "rb") as it:
                self.assertEqual(it.read(), text)
            self.assertEqual(os.listdir(folder), ["out.V21"])

    def test_what_is_no_transmission_is_refused(self):
        with self.assertRaises(cwr.RefusedError):
            cwr.select(b"XYZ\n", lambda _: True)
        with self.assertRaises(cwr.TruncatedError):
            cwr.select(b"", lambda _: True)
        with self.assertRaises(ValueError):
            cwr.select(WORKS, lambda _: True, limits=(5, 0, 1))


class Summaries(unittest.TestCase):
    """A summary is what the records say, one after another, and what a check finds."""

    RIGHTS = ("pr", "mr", "sr")
    OWNERS = {"SPU": "controlled", "SWR": "controlled", "OPU": "others", "OWR": "others"}

    def expected(self, document):
        """The same numbers, by the cells of the document's records."""
        count = collections.Counter()
        for record in document.records():
            count[f"records_{record.kind}"] += 1
            count["groups"] += record.kind == "GRH"
        for transaction in document:
            kind = transaction.header.kind
            count[f"transactions_{kind}"] += 1
            if kind == "ACK":
                count[f"acknowledgements_{transaction.header['transaction status']}"] += 1
            if kind not in ("NWR", "REV"):
                continue
            count[f"works_{transaction.header['version type']}"] += 1
            for right in self.RIGHTS:
                owned = [(self.OWNERS[it.kind], it.share(f"{right} share")) for it in transaction if it.kind in self.OWNERS]
                filled = [share for _, share in owned if share is not None]
                for side, share in owned:
                    count[f"{side}_{right}"] += share or 0
                count[f"works_without_{right}"] += not filled
                count[f"works_off_{right}"] += bool(sum(filled)) and abs(sum(filled) - 100) > Decimal("0.06")
        return count

    def test_each_sample_is_summed_up(self):
        for name in SAMPLES:
            found = cwr.summary(name)
            row = found.columns()
            self.assertEqual(found.verdict, cwr.check(name), name)
            rules = collections.Counter(f"findings_{it.rule}" for it in cwr.findings(name))
            self.assertEqual({key: value for key, value in row.items() if key.startswith("findings_V") and value}, dict(rules), name)
            if not found.verdict:
                continue
            document = cwr.read(name)
            expected = self.expected(document)
            sums = {"transactions", "records", "works", "acknowledgements", "findings"}
            numbers = {key: value for key, value in row.items() if value and key not in sums and not key.startswith("findings_")}
            self.assertEqual(numbers, {key: value for key, value in expected.items() if value}, name)
            self.assertEqual(row["records"], found.verdict.records, name)
            self.assertEqual(row["transactions"], found.verdict.transactions, name)

    def test_what_a_part_of_a_transmission_has(self):
        with open(WORKS, "rb") as it:
            text = it.read()
        lines = text.splitlines(keepends=True)
        self.assertEqual(cwr.summary(b"").columns()["records"], 0)
        cut = cwr.summary(b"".join(lines[:2]))
        self.assertEqual((str(cut.verdict), cut.records["HDR"], cut.records["GRH"], cut.groups), ("TRUNCATED records 2", 1, 1, 1))
        self.assertEqual(cwr.summary(text + b"what follows").columns(), cwr.summary(text).columns())
        with self.assertRaises(ValueError):
            cwr.summary(WORKS, limits=(5, 0, 1))


if __name__ == "__main__":
    unittest.main()
