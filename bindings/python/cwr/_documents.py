"""Texts and the index of their records."""
import ctypes
import mmap
import struct
from typing import Callable, Iterator, List, Optional, Sequence, Tuple, Union, overload

from . import _library
from ._layouts import layout
from ._limits import NO_LIMITS, Limits, limits_of
from ._records import Record, Transaction
from ._reports import notes_on
from ._texts import Source, Text
from ._verdicts import Ending, Finding, Level, RefusedError, TruncatedError, Verdict, told

# the shortest line of a record: a carried one without its text
_SHORTEST = 20


class Document(Sequence[Transaction]):
    """A text and the index of its records. The records are cut out of the text as they are asked for.

    It is a sequence of its transactions, and may be walked any number of times, from any thread. One that the end of the text or a
    refusal cut off isn't among them. `records` and `record` have the records, and `record_count` says how many these are.
    """

    def __init__(self, source: Source, limits: Limits = NO_LIMITS, mapped: bool = False):
        """Reads a path or bytes. What the text ends with is `verdict`; nothing is raised for it."""
        self._text, raw = Text(source, mapped), _library.Verdict()
        self._limits = limits = limits_of(limits)
        room = min(_lines(self._text.bytes), self._text.size // _SHORTEST) + 1
        while True:
            memory = _library.room(struct.calcsize(_library.LINE) * room)
            count = _library.index(self._text.at, self._text.size, *limits, memory, room, ctypes.byref(raw))
            if count <= room:
                break
            room = count
        self._count: int = count
        self._index = memoryview(memory).cast("B")[: struct.calcsize(_library.LINE) * count]
        more = {}
        if raw.ending == 0:
            _, _, groups, transactions = self._entry(count - 1)
            more = {"groups": groups, "transactions": transactions, "records": count}
        self.verdict: Verdict = told(raw, **more)
        """How the text ended."""
        self.size: int = raw.used
        """How many bytes the transmission takes, where the text begins with one."""

    def __reduce__(self) -> Tuple[Callable[[bytes, str, Limits], "Document"], Tuple[bytes, str, Limits]]:
        """How it comes to another process: its text, which is read again there."""
        return _document_of, (bytes(self._text.bytes[:]), self._text.name, self._limits)

    def _entry(self, i: int) -> Tuple[int, int, int, int]:
        offset, length, group, transaction = struct.unpack_from(_library.LINE, self._index, struct.calcsize(_library.LINE) * i)
        return offset, length, group, transaction

    @property
    def record_count(self) -> int:
        """How many records are accepted."""
        return self._count

    def __len__(self) -> int:
        """How many transactions there are."""
        if not self._count:
            return 0
        offset, _, _, transaction = self._entry(self._count - 1)
        return transaction if self._text.bytes[offset : offset + 3] in _OUTSIDE else transaction - 1

    def __bool__(self) -> bool:
        """Whether the text begins with a transmission."""
        return bool(self.verdict)

    def __repr__(self) -> str:
        return f"<Document {self._text.name!r}: {self.verdict}>"

    def _first(self, is_reached: Callable[[int, int], bool]) -> int:
        """The first entry whose group and transaction are reached; the index has them in order."""
        low, high = 0, self._count
        while low < high:
            middle = (low + high) // 2
            if is_reached(*self._entry(middle)[2:]):
                high = middle
            else:
                low = middle + 1
        return low

    @overload
    def __getitem__(self, at: int) -> Transaction: ...

    @overload
    def __getitem__(self, at: slice) -> List[Transaction]: ...

    def __getitem__(self, at: Union[int, slice]) -> Union[Transaction, List[Transaction]]:
        """A transaction, from 0, or a list of several. Raises `IndexError` where there is none."""
        if isinstance(at, slice):
            return [self[i] for i in range(*at.indices(len(self)))]
        number = at + 1 if at >= 0 else len(self) + at + 1
        if not 0 < number <= len(self):
            raise IndexError(at)
        first = self._first(lambda _, transaction: transaction >= number)
        group = self._entry(first)[2]
        before = self._entry(self._first(lambda of_group, _: of_group >= group))[3]
        found = Transaction(group, number, first + 1, sequence=number - 1 - before)
        for i in range(first, self._count):
            offset, length, _, transaction = self._entry(i)
            line = self._text.bytes[offset : offset + length]
            if transaction != number or line[:3] in _OUTSIDE:
                break
            found.append(Record.of_line(line))
        return found

    def record(self, number: int) -> Record:
        """The record of that number, from 1. Raises `IndexError` where there is none."""
        if not 0 < number <= self._count:
            raise IndexError(number)
        offset, length, _, _ = self._entry(number - 1)
        return Record.of_line(self._text.bytes[offset : offset + length])

    def records(self) -> Iterator[Record]:
        """All records, in order."""
        text, of_line = self._text.bytes, Record.of_line
        for offset, length, _, _ in struct.iter_unpack(_library.LINE, self._index):
            yield of_line(text[offset : offset + length])

    def __iter__(self) -> Iterator[Transaction]:
        """The transactions, in order."""
        text, of_line, held = self._text.bytes, Record.of_line, None
        last_group, sequence = 0, 0
        for number, (offset, length, group, transaction) in enumerate(struct.iter_unpack(_library.LINE, self._index), 1):
            line = text[offset : offset + length]
            if line[:3] in _OUTSIDE:
                if held is not None:
                    yield held
                held = None
                continue
            if held is None or held.number != transaction:
                if held is not None:
                    yield held
                sequence = sequence + 1 if group == last_group else 0
                held, last_group = Transaction(group, transaction, number, sequence=sequence), group
            held.append(of_line(line))

    @property
    def header(self) -> Optional[Record]:
        """The record HDR, where there is one."""
        return self.record(1) if self._count else None

    def raise_for_verdict(self) -> None:
        """Raises `RefusedError` or `TruncatedError` where the text begins with no transmission, with the notes of an explanation."""
        verdict = self.verdict
        if verdict:
            return
        notes = notes_on(self._text, self._limits)
        words = f"{self._text.name}: {self._words(verdict)}{''.join(f'; {it}' for it in notes)}"
        raise (RefusedError if verdict.ending is Ending.REFUSED else TruncatedError)(words, verdict, notes)

    def _words(self, verdict: Verdict) -> str:
        """The refused record and field, by number and name, and why; or where the text ended."""
        if verdict.ending is Ending.TRUNCATED:
            return f"it ends after {verdict.records} records, which are no transmission"
        kind, name = self._kind_at(self._count).decode("latin-1"), ""
        try:
            name = next((f" ({it.name})" for it in layout(kind) if it.number == verdict.field), "")
        except KeyError:
            kind = repr(kind) if kind else "an empty line"
        return f"record {verdict.record} ({kind}), field {verdict.field}{name}, level {verdict.level.value if verdict.level else ''}: {verdict.reason}"

    def _kind_at(self, count: int) -> bytes:
        """The first three bytes of the line behind so many records, as far as it has them."""
        text, start = self._text.bytes, 0
        if count:
            offset, length = self._entry(count - 1)[:2]
            start = text.find(b"\n", offset + length) + 1
        return text[start : start + 3].split(b"\n")[0].split(b"\r")[0]


_OUTSIDE = frozenset((b"HDR", b"GRH", b"GRT", b"TRL"))


def text_of(document: Document) -> Text:
    """The text that a document is of."""
    return document._text


def _document_of(text: bytes, name: str, limits: Limits) -> Document:
    """The document of a text that has come from another process, under the name that it had there."""
    found = Document(text, limits)
    found._text.name = name
    return found


def _lines(text: Union[bytes, mmap.mmap]) -> int:
    """How many lines a text has at most."""
    if isinstance(text, bytes):
        return text.count(b"\n")
    count, step = 0, 1 << 24
    for at in range(0, len(text), step):
        count += text[at : at + step].count(b"\n")
    return count


def check(source: Source, limits: Limits = NO_LIMITS, mapped: bool = False) -> Verdict:
    """The verdict on a path or on bytes: what `cwr check` says of it. Memory holds the text and one transaction.

    Raises `ValueError` where a limit isn't in its range, `MemoryError` and `OSError`.
    """
    text, raw = Text(source, mapped), _library.Verdict()
    _library.check(text.at, text.size, *limits_of(limits), ctypes.byref(raw))
    return told(raw)


def findings(source: Source, limits: Limits = NO_LIMITS, mapped: bool = False) -> List[Finding]:
    """The rules that records break: what `cwr check` prints before its verdict, also of a text that is refused later."""
    text, raw = Text(source, mapped), _library.Verdict()
    room, size = 64, struct.calcsize(_library.FINDING)
    while True:
        memory = _library.room(size * room)
        count = _library.findings(text.at, text.size, *limits_of(limits), memory, room, ctypes.byref(raw))
        told(raw)
        if count <= room:
            break
        room = count
    found = struct.iter_unpack(_library.FINDING, memoryview(memory).cast("B")[: size * count])
    return [Finding(record, field, f"V{rule}", Level(chr(level))) for record, field, rule, level in found]


def read(source: Source, limits: Limits = NO_LIMITS, mapped: bool = False) -> Document:
    """The document of a path or of bytes.

        for transaction in cwr.read("CW240001PB_052.V21"):
            for record in transaction:
                print(record.kind, record.fields)

    Raises `RefusedError` and `TruncatedError` where the text begins with no transmission; `Document(source)` gives what comes
    before that. Raises `ValueError` where a limit isn't in its range, `MemoryError` and `OSError`.
    """
    document = Document(source, limits, mapped)
    document.raise_for_verdict()
    return document
