"""Writing."""
import ctypes
import os
import re
from typing import Callable, Iterable, Iterator, Optional, Tuple, Union

from . import _library
from ._documents import Document
from ._layouts import KINDS, blank, layout
from ._limits import NO_LIMITS, Limits, limits_of
from ._records import Record, Transaction
from ._reports import lint
from ._verdicts import LIMITS, WriteError

Path = Union[str, bytes, "os.PathLike[str]", "os.PathLike[bytes]"]
"""The name of a file that is written."""

_FAULTS = ("", "carries no record", "can't come there", "is of another kind than its group's", "begins or ends what isn't whole", "passes the limit of ")


def _written(call: Callable[..., int], text: bytes, size: int, limits: Limits) -> Tuple[_library.Written, bytes]:
    told_of = _library.Written()
    while True:
        memory = _library.room(size)
        count = call(text, len(text), *limits_of(limits), memory, size, ctypes.byref(told_of))
        if told_of.ending == 6:
            raise MemoryError("out of memory")
        if told_of.ending == 7:
            raise ValueError("a limit isn't in its range")
        if count <= size:
            return told_of, _library.front(memory, count)
        size = count


def put(text: bytes, path: Optional[Path]) -> bytes:
    """Writes a file under its name once it is whole. What was written of it goes where it doesn't become so."""
    if path is not None:
        name = os.fsdecode(path)
        part = f"{name}.part"
        with open(part, "xb") as it:
            try:
                it.write(text)
                it.flush()
                os.replace(part, name)
            except BaseException:
                os.unlink(part)
                raise
    return text


def _why_no_record(line: bytes) -> str:
    """Of a line that carries no record the first field and why, as a verdict has them. Fields that are made aren't looked at."""
    kind = line[:3].decode("latin-1")
    fields = {it.number: it for it in layout(kind)} if kind in KINDS else {}
    for number, why in re.findall(r"^(?:FAULT|REFUSED) record 1 field (\d+) level . (.*)$", lint(line + b"\n"), re.M):
        field = fields.get(int(number))
        if why in ("unknown kind", "excess") or (why.startswith("cell ") and field and not field.derived):
            return f"field {number}{f' ({field.name})' if field else ''}: {why}"
    return ""


def _records_in(given: Union[Document, Iterable[Union[Record, Transaction]]]) -> Iterator[Record]:
    """The records of a document, or those that are given, by themselves and in transactions."""
    if isinstance(given, Document):
        yield from given.records()
    elif isinstance(given, Iterable) and not isinstance(given, (str, bytes)):
        for it in given:
            yield from [it] if isinstance(it, Record) else _records_in(it)
    else:
        raise TypeError(f"records, transactions or a document are written, and not {'None' if given is None else type(given).__name__}")


def write(
    records: Union[Document, Iterable[Union[Record, Transaction]]], path: Optional[Path] = None, limits: Limits = NO_LIMITS
) -> bytes:
    """The canonical text of the transmission with these records, in order: HDR, GRH, transactions, GRT and so on.

    Of a document all its records are taken. Sequence numbers, IDs and counts are made, whatever the records have. TRL may be left
    out. With a path the text is written there too, under `path.part` until it is whole. Raises `WriteError`, which says at which
    record.
    """
    lines = [it.line for it in _records_in(records)]
    widths = {kind.encode("ascii"): len(blank(kind)) + 2 for kind in KINDS}
    size = sum(widths.get(line[:3], 0) for line in lines) + 4096
    found, text = _written(_library.write, b"".join(line + b"\n" for line in lines), size, limits)
    if found.ending:
        words = _FAULTS[found.ending] + (LIMITS[found.detail] if found.ending == 5 else "")
        where = f"record {found.line}" if found.line else "the end of the records"
        kind = f" ({lines[found.line - 1][:3].decode('latin-1')})" if 0 < found.line <= len(lines) else ""
        why = _why_no_record(lines[found.line - 1]) if found.ending == 1 and kind else ""
        raise WriteError(f"{where}{kind} {words}{f', {why}' if why else ''}", found.line)
    return put(text, path)


def from_json(text: Union[str, bytes, bytearray, memoryview], path: Optional[Path] = None, limits: Limits = NO_LIMITS) -> bytes:
    """The canonical text of the transmission that lines of JSON are, as `to_json` gives them.

    Raises `WriteError`, which says at which line and why.
    """
    if not isinstance(text, (str, bytes, bytearray, memoryview)):
        raise TypeError(f"lines of JSON are a str or bytes, and not {'None' if text is None else type(text).__name__}")
    lines = text.encode("utf-8") if isinstance(text, str) else bytes(text)
    found, told_text = _written(_library.write_json, lines, 2 * len(lines) + 4096, limits)
    if found.ending:
        raise WriteError(told_text.decode("utf-8", "replace").strip(), found.line)
    return put(told_text, path)
