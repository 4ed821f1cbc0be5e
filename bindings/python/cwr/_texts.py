"""Texts in memory: a file's bytes, or bytes that are there already."""
import ctypes
import mmap
import os
from typing import Any, BinaryIO, Union

Source = Union[str, "os.PathLike[str]", bytes, bytearray, memoryview]
"""A path, or bytes that are there already."""


def _opened(source: "Union[str, os.PathLike[str]]") -> BinaryIO:
    """The file of a path. A text that was handed in as a `str` is no path."""
    try:
        return open(source, "rb")
    except (OSError, ValueError):
        if isinstance(source, str) and ("\n" in source or source.startswith("HDR")):
            raise TypeError("a source is a path or bytes: this str is neither, but a text; hand in text.encode('latin-1')") from None
        raise


def _copied(source: Any) -> bytes:
    try:
        return bytes(memoryview(source))
    except TypeError:
        raise TypeError(f"a source is a path or bytes, and not {'None' if source is None else type(source).__name__}") from None


class Text:
    """The bytes of a path or of a bytes-like object, where they stay as they are, and what explanations call them.

    What may change while it is read is copied first. A file is read whole, or mapped where that is asked for: a mapped file
    takes no memory of its own, and must not be cut short or written to as long as it is used.
    """

    def __init__(self, source: Source, mapped: bool = False):
        self.name, self._pin = "-", None  # type: str, Any
        found: Union[bytes, mmap.mmap]
        if isinstance(source, (str, os.PathLike)):
            self.name = os.fsdecode(source)
            with _opened(source) as it:
                if mapped and os.fstat(it.fileno()).st_size:
                    found = mmap.mmap(it.fileno(), 0, flags=mmap.MAP_PRIVATE, prot=mmap.PROT_READ | mmap.PROT_WRITE)
                else:
                    found = it.read()
        else:
            found = source if isinstance(source, bytes) else _copied(source)
        self.bytes, self.size = found, len(found)
        self.at: int
        if isinstance(found, bytes):
            self.at = ctypes.cast(ctypes.c_char_p(found), ctypes.c_void_p).value or 0
        else:
            self._pin = (ctypes.c_uint8 * self.size).from_buffer(found)
            self.at = ctypes.addressof(self._pin)
