"""What the program writes of a text."""
import ctypes
from typing import List, Optional

from . import _library
from ._limits import NO_LIMITS, Limits, limits_of
from ._texts import Source, Text
from ._verdicts import told

_CHECK, _SHOW, _EXPLAIN, _JSON, _NUMBERED_JSON, _LINT, _EXPLAINED_LINT = range(7)


def _report(what: int, text: Text, limits: Limits, name: Optional[str]) -> bytes:
    raw = _library.Verdict()
    size = (2 * text.size if what in (_SHOW, _JSON, _NUMBERED_JSON) else 0) + 65_536
    named = (text.name if name is None else name).encode("utf-8", "surrogateescape")
    while True:
        memory = _library.room(size)
        count = _library.report(what, text.at, text.size, *limits_of(limits), named, len(named), memory, size, ctypes.byref(raw))
        told(raw)
        if count <= size:
            return _library.front(memory, count)
        size = count


def report(source: Source, limits: Limits = NO_LIMITS) -> str:
    """The findings and the verdict, as `cwr check` prints them."""
    return _report(_CHECK, Text(source), limits, None).decode("latin-1")


def show(source: Source, limits: Limits = NO_LIMITS) -> str:
    """The records and their cells, as `cwr show` prints them."""
    return _report(_SHOW, Text(source), limits, None).decode("latin-1")


def explain(source: Source, limits: Limits = NO_LIMITS, name: Optional[str] = None) -> str:
    """What was found, in words, as `cwr explain` prints it. `name` is what the words call the text, else that is its path."""
    return _report(_EXPLAIN, Text(source), limits, name).decode("utf-8", "surrogateescape")


def notes_on(text: Text, limits: Limits) -> List[str]:
    """The notes that an explanation has on why a text isn't good: that it is a gzip file, or may have been cut off."""
    notes: List[str] = []
    for line in _report(_EXPLAIN, text, limits, "-").decode("utf-8", "surrogateescape").split("\n"):
        if line.startswith("  note "):
            notes.append(line.split(maxsplit=1)[1])
        elif line and not line.startswith("  "):
            # the words on a finding, or on the verdict, which is the last
            notes = []
    return notes


def lint(source: Source, limits: Limits = NO_LIMITS, explained: bool = False, name: Optional[str] = None) -> str:
    """Every fault and finding, as `cwr lint` prints them, with words under each where they are to be explained."""
    return _report(_EXPLAINED_LINT if explained else _LINT, Text(source), limits, name).decode("utf-8", "surrogateescape")


def to_json(source: Source, limits: Limits = NO_LIMITS, numbers: bool = False) -> str:
    """The data as lines of JSON, as `cwr json` writes them (docs/JSON.md): one for each header, transaction and trailer.

    Of a text that is refused it has what comes before that: ask `check` first.
    """
    return _report(_NUMBERED_JSON if numbers else _JSON, Text(source), limits, None).decode("utf-8")
