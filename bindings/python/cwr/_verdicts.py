"""Verdicts, findings and errors."""
import enum
from dataclasses import dataclass
from typing import Any, Optional, Sequence, Tuple


class Error(Exception):
    """What this package raises about a text: it is no transmission, or none can be written of it."""


class Ending(enum.Enum):
    """How a text ended."""

    GOOD = 0
    """It begins with a transmission."""
    REFUSED = 1
    """No transmission continues from a record and a field of it."""
    TRUNCATED = 2
    """It ended too early."""


class Level(enum.Enum):
    """How much a refusal rejects, or a finding concerns."""

    FILE = "E"
    GROUP = "G"
    TRANSACTION = "T"
    RECORD = "R"
    FIELD = "F"


CELL_FAULTS = ("", "blank", "control", "not digits", "not a date", "not a time", "over share", "not a code", "not constant")
LIMITS = ("", "records", "groups", "transaction")


@dataclass(frozen=True)
class Verdict:
    """The verdict on a text. It is true where the text begins with a transmission.

    `str` of it is the line that `cwr check` prints.
    """

    ending: Ending
    groups: int = 0
    """Good: how many groups."""
    transactions: int = 0
    """Good: how many transactions."""
    records: int = 0
    """Good and truncated: how many records."""
    record: int = 0
    """Refused: the record, from 1. It is the line of that number."""
    field: int = 0
    """Refused: the field, from 1; one past the last is what stands behind it."""
    level: Optional[Level] = None
    """Refused: how much is rejected."""
    reason: str = ""
    """Refused: why, in the words of docs/FORMAT.md."""
    expected: Optional[int] = None
    """Refused for a number: the one that belongs there."""

    def __bool__(self) -> bool:
        return self.ending is Ending.GOOD

    def __str__(self) -> str:
        if self.ending is Ending.GOOD:
            return f"GOOD groups {self.groups} transactions {self.transactions} records {self.records}"
        if self.ending is Ending.REFUSED:
            return f"REFUSED record {self.record} field {self.field} level {self.level.value if self.level else ''} {self.reason}"
        return f"TRUNCATED records {self.records}"


@dataclass(frozen=True)
class Finding:
    """A rule that a record breaks. The verdict stays as it is."""

    record: int
    """The record, from 1. It is the line of that number."""
    field: int
    """The field, from 1."""
    rule: str
    """`V1` to `V11`, as docs/FORMAT.md has them."""
    level: Level
    """How much it concerns."""


class _NotGood(Error):
    """A text that isn't good."""

    def __init__(self, message: str, verdict: Verdict, notes: Sequence[str] = ()):
        super().__init__(message)
        self.verdict = verdict
        self.notes: Tuple[str, ...] = tuple(notes)
        """What an explanation notes on it, as that it is a gzip file. The message has them too."""

    def __reduce__(self) -> Tuple[Any, ...]:
        return type(self), (*self.args, self.verdict, self.notes)


class RefusedError(_NotGood):
    """No transmission continues from a record and a field of the text: `verdict` has both, the message names them."""


class TruncatedError(_NotGood):
    """The text ended too early. `verdict` says after how many records."""


class WriteError(Error):
    """No transmission was written. `line` is the record or the line of JSON at which that came, from 1; 0 behind all."""

    def __init__(self, message: str, line: int):
        super().__init__(message)
        self.line = line

    def __reduce__(self) -> Tuple[Any, ...]:
        return type(self), (*self.args, self.line)


def told(raw: Any, **more: int) -> Verdict:
    """The verdict that the library tells. Raises `MemoryError`, and `ValueError` where a limit isn't in its range."""
    if raw.ending == 3:
        raise MemoryError("out of memory")
    if raw.ending == 4:
        raise ValueError("a limit isn't in its range: records 5 to 99999999, groups 1 to 99999, transaction 1 to 999999")
    if raw.ending == 1:
        reasons = {
            1: "unknown kind",
            2: "misplaced",
            3: f"cell {CELL_FAULTS[raw.detail]}" if raw.reason == 3 else "",
            4: f"number expected {raw.expected}",
            5: f"limit {LIMITS[raw.detail]}" if raw.reason == 5 else "",
            6: "excess",
        }
        expected = raw.expected if raw.reason == 4 else None
        return Verdict(Ending.REFUSED, 0, 0, 0, raw.records, raw.field, Level(chr(raw.level)), reasons[raw.reason], expected)
    numbers = {"groups": raw.groups, "transactions": raw.transactions, "records": raw.records, **more}
    return Verdict(Ending(raw.ending), **numbers)
