"""Records, cell by cell."""
import datetime
from decimal import Decimal
from typing import Dict, Iterable, Iterator, List, Mapping, NamedTuple, Optional, Union, cast

from ._layouts import Field, Type, blank, by_name, carried, layout, places

Value = Union[str, int, bool, Decimal, datetime.date, datetime.time, datetime.timedelta]
"""A cell as Python has it: see `Record.value`."""

_DATES, _TIMES = (Type.DATE, Type.OPTIONAL_DATE), (Type.TIME, Type.OPTIONAL_TIME)
_NUMBERS = (Type.DIGITS, Type.OPTIONAL_DIGITS)


def _read(field: Field, cell: str) -> Optional[Value]:
    """The value of a cell, whose spaces at the end are left out."""
    text = cell.strip(" ")
    if not text:
        return None
    if field.type is Type.SHARE:
        return Decimal(int(text)).scaleb(-2)
    if field.type in _NUMBERS:
        return int(text)
    if field.type in _DATES:
        return None if not text.strip("0") else datetime.date(int(text[:4]), int(text[4:6]), int(text[6:]))
    if field.type in _TIMES:
        return datetime.time(int(text[:2]), int(text[2:4]), int(text[4:]))
    if field.type is Type.OPTIONAL_DURATION:
        return datetime.timedelta(hours=int(text[:2]), minutes=int(text[2:4]), seconds=int(text[4:]))
    if field.type is Type.FLAG:
        return {"Y": True, "N": False}.get(text)
    return cell.rstrip(" ")


_WANTED = {
    "share": "a share: a Decimal or an int, in percent",
    "number": "a number: an int",
    "date": "a date: a datetime.date",
    "time": "a time of day: a datetime.time",
    "duration": "a duration: a datetime.timedelta",
    "flag": "a flag: True or False",
    "text": "text",
}


def _sort(field: Field) -> str:
    """What values of a field are: one of the keys above."""
    if field.type in _NUMBERS:
        return "number"
    if field.type in _DATES:
        return "date"
    if field.type in _TIMES:
        return "time"
    return {Type.SHARE: "share", Type.OPTIONAL_DURATION: "duration", Type.FLAG: "flag"}.get(field.type, "text")


def _value(kind: str, field: Field, cell: str) -> Optional[Value]:
    """The value of a cell of a record of that kind. Raises `ValueError` where it isn't one of its type."""
    try:
        return _read(field, cell)
    except ValueError:
        raise ValueError(f"{kind} {field.name}: {cell!r} isn't {_WANTED[_sort(field)].split(':')[0]}") from None


def _bytes(kind: str, field: Field, cell: str) -> bytes:
    """The bytes of a cell of a record of that kind. Raises `ValueError` where a character isn't one of a byte."""
    try:
        return cell.encode("latin-1")
    except UnicodeEncodeError as fault:
        character = cell[fault.start]
        raise ValueError(
            f"{kind} {field.name}: {character!r} isn't in ISO 8859-1, of which each character is a byte; of a text in UTF-8 hand in text.encode().decode('latin-1')"
        ) from None


def _write(field: Field, value: Optional[Value]) -> str:
    """The cell of a value. Any field takes a text."""
    sort = _sort(field)
    if value is None:
        return ""
    if isinstance(value, str):
        return value
    if isinstance(value, bool):
        if sort == "flag":
            return "Y" if value else "N"
    elif isinstance(value, (Decimal, int)) and sort == "share":
        hundredths = Decimal(value).scaleb(2)
        if not hundredths.is_finite() or hundredths != int(hundredths) or hundredths < 0:
            raise ValueError(f"{field.name}: {value} is no number of hundredths of a percent")
        if hundredths > 10000:
            raise ValueError(f"{field.name}: {value} is more than 100 percent")
        return f"{int(hundredths):05}"
    elif isinstance(value, int) and sort == "number":
        if value < 0:
            raise ValueError(f"{field.name}: {value} is below 0")
        return str(value).rjust(field.width, "0")
    elif isinstance(value, datetime.date) and sort == "date":
        return f"{value:%Y%m%d}".rjust(8, "0")
    elif isinstance(value, datetime.time) and sort == "time":
        return f"{value:%H%M%S}"
    elif isinstance(value, datetime.timedelta) and sort == "duration":
        seconds = int(value.total_seconds())
        if seconds < 0:
            raise ValueError(f"{field.name}: {value} is below 0")
        return f"{seconds // 3600:02}{seconds // 60 % 60:02}{seconds % 60:02}"
    raise TypeError(f"{field.name}: {value!r} isn't {_WANTED[sort]}; or a str, as it stands in the cell")


class Record(Mapping[str, str]):
    """A record: its kind, and its cells by the names of their fields, as text without the spaces at their ends.

        record["title"]             the cell as text; `KeyError` where the kind has no such field
        record.value("pr share")    the cell as a value: Decimal("33.05")
        record["title"] = "OTHER"   sets the cell
        Record("SWR", {"last name": "DOE", "pr share": Decimal("33.05")})

    Bytes from 128 on are the characters of the same number (Latin-1), so that every text comes back as it was.
    """

    __slots__ = ("kind", "line")

    def __init__(self, kind: str, cells: Optional[Mapping[str, Optional[Value]]] = None):
        """A record in which only these cells are set, and constants."""
        self.kind: str = kind
        """The three letters of its kind, as `NWR`."""
        self.line: bytes = blank(kind)
        """Its line, without a line end."""
        for name, value in (cells or {}).items():
            self[name] = value

    @classmethod
    def of_line(cls, line: bytes) -> "Record":
        """The record of a line. Nothing is judged."""
        self = cls.__new__(cls)
        self.kind, self.line = line[:3].decode("latin-1"), line
        return self

    def __getitem__(self, name: str) -> str:
        start, end = places(self.kind)[name]
        return self.line[start:end].decode("latin-1").rstrip(" ")

    def value(self, name: str) -> Optional[Value]:
        """The cell as a value, by its field's type; `None` where it is blank.

        A share is a `Decimal` in percent, a date a `date` (eight zeros are none), a time of day a `time`, a duration a
        `timedelta`, digits an `int`, a flag `True` or `False` (`U`, not known, is `None`), all else text. Raises `ValueError`
        where the cell isn't one of its type, which doesn't come in a record that was accepted.
        """
        return _value(self.kind, by_name(self.kind)[name], self[name])

    def _typed(self, name: str, sort: str) -> Optional[Value]:
        field = by_name(self.kind)[name]
        if _sort(field) != sort:
            raise TypeError(f"{self.kind} {name} isn't {_WANTED[sort]}, but {_WANTED[_sort(field)]}")
        return _value(self.kind, field, self[name])

    def share(self, name: str) -> Optional[Decimal]:
        """The share in percent; `None` where it is blank. Raises `TypeError` where the field holds none, else as `value`."""
        return cast(Optional[Decimal], self._typed(name, "share"))

    def date(self, name: str) -> Optional[datetime.date]:
        """The date; `None` where it is blank or zeros. Raises `TypeError` where the field holds none, else as `value`."""
        return cast(Optional[datetime.date], self._typed(name, "date"))

    def number(self, name: str) -> Optional[int]:
        """The number; `None` where it is blank. Raises `TypeError` where the field holds none, else as `value`."""
        return cast(Optional[int], self._typed(name, "number"))

    def __setitem__(self, name: str, value: Optional[Value]) -> None:
        """Sets a cell to a text, or to a value of its field's type; `None` makes it blank.

        Raises `TypeError` where the value is of another type, and `ValueError` where it is wider than its field, a share is over 100
        percent, or a character isn't one of a byte. A text is taken as it is.
        """
        field = by_name(self.kind)[name]
        cell = _bytes(self.kind, field, _write(field, value))
        if len(cell) > field.width:
            raise ValueError(f"{self.kind} {name}: {value!r} is wider than {field.width}")
        line = self.line.ljust(len(blank(self.kind)))
        self.line = line[: field.start] + cell.ljust(field.width) + line[field.start + field.width :]

    def __iter__(self) -> Iterator[str]:
        return iter(by_name(self.kind))

    def __len__(self) -> int:
        return len(layout(self.kind))

    @property
    def fields(self) -> Dict[str, str]:
        """The cells that aren't blank and aren't computed, by name."""
        text = self.line.decode("latin-1")
        return {name: cell for name, start, end in carried(self.kind) if (cell := text[start:end].rstrip(" "))}

    @property
    def values_by_name(self) -> Dict[str, Value]:
        """The same as values."""
        found = {name: self.value(name) for name in self.fields}
        return {name: value for name, value in found.items() if value is not None}

    def __eq__(self, other: object) -> bool:
        return isinstance(other, Record) and (self.kind, self.fields) == (other.kind, other.fields)

    __hash__ = None  # type: ignore[assignment]

    def __repr__(self) -> str:
        return f"Record({self.kind!r}, {self.fields!r})"


class Place(NamedTuple):
    """Where a transaction stands, as the program counts."""

    group: int
    """The number of its group in the transmission, from 1."""
    sequence: int
    """Its sequence in that group, from 0."""


class Transaction(List[Record]):
    """The records of a transaction, its header first."""

    def __init__(self, group: int, number: int, first: int, records: Iterable[Record] = (), sequence: int = 0):
        super().__init__(records)
        self.group: int = group
        """The number of its group in the transmission, from 1."""
        self.place: Place = Place(group, sequence)
        """The number of its group, from 1, and its sequence in that, from 0: so the program names it."""
        self.number: int = number
        """Its number in the transmission, from 1, in all groups."""
        self.first: int = first
        """The number of its first record in the transmission, from 1."""

    @property
    def header(self) -> Record:
        """Its first record: AGR, NWR, REV or ACK."""
        return self[0]

    def of_kind(self, *kinds: str) -> List[Record]:
        """Its records of these kinds, in order."""
        return [it for it in self if it.kind in kinds]


