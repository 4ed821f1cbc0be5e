"""Selecting transactions."""
import ctypes
import struct
from typing import Callable, Optional

from . import _library
from ._documents import read, text_of
from ._limits import NO_LIMITS, Limits, limits_of
from ._records import Transaction
from ._texts import Source
from ._verdicts import told
from ._writing import Path, put


def select(source: Source, chooses: Callable[[Transaction], object], path: Optional[Path] = None, limits: Limits = NO_LIMITS) -> bytes:
    """The canonical text of the transactions for which `chooses` answers yes, as a transmission of their own.

        cwr.select("CW240001PB_052.V21", lambda transaction: transaction.header["submitter work number"] in wanted)

    It has the HDR, of each group with such a transaction the GRH and these in their order, and a GRT, whose total is left out where a
    transaction is. Where none is chosen it is empty, and nothing is written to a path. With a path the text is written there too, under
    `path.part` until it is whole. Raises `RefusedError` and `TruncatedError` as `read` does.
    """
    document = read(source, limits)
    text = text_of(document)
    places = b"".join(struct.pack(_library.PLACE, *it.place) for it in document if chooses(it))
    count, size, raw = len(places) // struct.calcsize(_library.PLACE), text.size + 4096, _library.Verdict()
    while True:
        memory = _library.room(size)
        needed = _library.select(text.at, text.size, *limits_of(limits), places, count, memory, size, ctypes.byref(raw))
        told(raw)
        if needed <= size:
            break
        size = needed
    return put(_library.front(memory, needed), path if count else None)
