"""The calls of the C library, by ctypes. Nothing here knows the format; the header says what each call does."""
import ctypes
import os
from typing import Any, Callable

INTERFACE = 1

_u8, _u32, _u64, _size, _at = ctypes.c_uint8, ctypes.c_uint32, ctypes.c_uint64, ctypes.c_size_t, ctypes.c_void_p
_LIMITS = (_u32, _u32, _u32)


class Verdict(ctypes.Structure):
    """`cwr_verdict`."""

    _fields_ = [
        *((name, _u32) for name in ("ending", "groups", "transactions", "records", "field", "level", "reason", "detail")),
        ("expected", _u64),
        ("used", _u64),
    ]


class FieldPlace(ctypes.Structure):
    """`cwr_field_place`."""

    _fields_ = [("start", _size), ("width", _size), ("type", _u32), ("derived", _u32)]


class Written(ctypes.Structure):
    """`cwr_written`."""

    _fields_ = [("ending", _u32), ("detail", _u32), ("line", _u64)]


PLACE = "@II"  # `cwr_place`: group, transaction
LINE = "@NNII"  # `cwr_line`, as struct has it: offset, length, group, transaction
FINDING = "@IIII"  # `cwr_finding`: record, field, rule, level


def _load() -> ctypes.CDLL:
    """The library: the one that CWR_LIBRARY names, the one beside this file, or the system's."""
    beside = os.path.join(os.path.dirname(os.path.abspath(__file__)), f"libcwr.so.{INTERFACE}")
    name = os.environ.get("CWR_LIBRARY") or (beside if os.path.exists(beside) else f"libcwr.so.{INTERFACE}")
    library = ctypes.CDLL(name)
    if library.cwr_interface() != INTERFACE:
        raise ImportError(f"{name} has interface {library.cwr_interface()}, and this package is for {INTERFACE}")
    return library


_library = _load()


def _call(name: str, result: Any, *arguments: Any) -> Callable[..., Any]:
    it: Any = getattr(_library, name)
    it.restype, it.argtypes = result, arguments
    return it  # type: ignore[no-any-return]


check = _call("cwr_check", None, _at, _size, *_LIMITS, _at)
findings = _call("cwr_findings", _size, _at, _size, *_LIMITS, _at, _size, _at)
index = _call("cwr_index", _size, _at, _size, *_LIMITS, _at, _size, _at)
report = _call("cwr_report", _size, _u32, _at, _size, *_LIMITS, _at, _size, _at, _size, _at)
kind = _call("cwr_kind", _size, _u32, _at, _size)
field = _call("cwr_field", _size, _at, _size, _u8, _at, _at, _size)
code = _call("cwr_code", _size, _at, _size, _u8, _u32, _at, _size)
blank = _call("cwr_blank", _size, _at, _size, _at, _size)
select = _call("cwr_select", _size, _at, _size, *_LIMITS, _at, _size, _at, _size, _at)
summary = _call("cwr_summary", _size, _at, _size, *_LIMITS, _at, _size, _at)
write = _call("cwr_write", _size, _at, _size, *_LIMITS, _at, _size, _at)
write_json = _call("cwr_write_json", _size, _at, _size, *_LIMITS, _at, _size, _at)


def room(size: int) -> "ctypes.Array[ctypes.c_uint64]":
    """Memory that a call may write into, of so many bytes, aligned for any structure of the header."""
    return (_u64 * (size // 8 + 1))()


def front(memory: "ctypes.Array[ctypes.c_uint64]", size: int) -> bytes:
    """The first bytes of a room."""
    return ctypes.string_at(memory, size)


def small_text(call: Callable[..., Any], *arguments: Any) -> bytes:
    """What a call without limits writes, of at most 1,024 bytes. Empty where there is nothing."""
    memory = room(1024)
    return front(memory, call(*arguments, memory, 1024))
