"""The kinds of records and their layouts, as the library has them: nothing is written down here."""
import ctypes
import enum
import functools
from dataclasses import dataclass
from typing import Dict, List, Tuple

from . import _library


class Type(enum.Enum):
    """What the cells of a field hold."""

    TEXT = 1
    REQUIRED = 2
    """Text that isn't blank."""
    DIGITS = 3
    OPTIONAL_DIGITS = 4
    DATE = 5
    OPTIONAL_DATE = 6
    TIME = 7
    OPTIONAL_TIME = 8
    OPTIONAL_DURATION = 9
    SHARE = 10
    FLAG = 11
    CODE = 12
    OPTIONAL_CODE = 13
    CONSTANT = 14


@dataclass(frozen=True)
class Field:
    """A field of a kind."""

    number: int
    """Its number in reports, from 1."""
    name: str
    """Its name in reports, as `pr share`."""
    start: int
    """Its first byte in the line, from 0."""
    width: int
    """How many bytes it has."""
    type: Type
    """What its cells hold."""
    derived: bool
    """Whether its cells are computed when they are written."""
    codes: Tuple[str, ...]
    """The texts that its cells may hold where these can be listed: codes, flags, constants."""


def _codes(kind: bytes, number: int) -> Tuple[str, ...]:
    found: List[str] = []
    while code := _library.small_text(_library.code, kind, len(kind), number, len(found)):
        found.append(code.decode("ascii"))
    return tuple(found)


@functools.lru_cache(maxsize=None)
def layout(kind: str) -> Tuple[Field, ...]:
    """The fields of a kind, in order, as `layout("NWR")`. Raises `KeyError` where three letters name no kind."""
    letters, place = kind.encode("latin-1", "replace"), _library.FieldPlace()
    fields: List[Field] = []
    while name := _library.small_text(_library.field, letters, len(letters), len(fields) + 1, ctypes.byref(place)):
        codes = _codes(letters, len(fields) + 1)
        fields.append(
            Field(len(fields) + 1, name.decode("ascii"), place.start, place.width, Type(place.type), bool(place.derived), codes)
        )
    if not fields:
        raise KeyError(kind)
    return tuple(fields)


@functools.lru_cache(maxsize=None)
def by_name(kind: str) -> Dict[str, Field]:
    """The fields of a kind by name."""
    return {it.name: it for it in layout(kind)}


@functools.lru_cache(maxsize=None)
def places(kind: str) -> Dict[str, Tuple[int, int]]:
    """Where the fields of a kind begin and end, by name."""
    return {it.name: (it.start, it.start + it.width) for it in layout(kind)}


@functools.lru_cache(maxsize=None)
def carried(kind: str) -> List[Tuple[str, int, int]]:
    """The names of the fields that aren't computed, and where they begin and end, in order."""
    return [(it.name, it.start, it.start + it.width) for it in layout(kind) if not it.derived]


@functools.lru_cache(maxsize=None)
def blank(kind: str) -> bytes:
    """The line of a record of the kind in which nothing was set."""
    letters = kind.encode("latin-1", "replace")
    line = _library.small_text(_library.blank, letters, len(letters))
    if not line:
        raise KeyError(kind)
    return line


def _kinds() -> Tuple[str, ...]:
    found: List[str] = []
    while kind := _library.small_text(_library.kind, len(found)):
        found.append(kind.decode("ascii"))
    return tuple(found)


KINDS: Tuple[str, ...] = _kinds()
"""The kinds of this profile, in order: `HDR` first."""
