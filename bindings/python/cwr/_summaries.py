"""What stands in a transmission, in numbers."""
import ctypes
from dataclasses import dataclass
from decimal import Decimal
from typing import Dict, Iterator, Mapping, Sequence, Tuple, Union

from . import _library
from ._layouts import KINDS
from ._limits import NO_LIMITS, Limits, limits_of
from ._texts import Source, Text
from ._verdicts import Verdict, told

_TYPES = ("AGR", "NWR", "REV", "ACK")
_VERSIONS = ("ORI", "MOD")
_STATUSES = ("CO", "DU", "RA", "AS", "AC", "SR", "CR", "RJ", "NP", "RC")
_RULES = tuple(f"V{number}" for number in range(1, 12))
_RIGHTS = ("pr", "mr", "sr")


@dataclass(frozen=True)
class Summary:
    """What stands in a text's transmission; of one that is refused or cut, what stands in the items before.

    A work is a transaction that begins with NWR or REV. The copy in an acknowledgement is none, though its records count as records.
    """

    verdict: Verdict
    groups: int
    transactions: Mapping[str, int]
    """By type: AGR, NWR, REV, ACK."""
    records: Mapping[str, int]
    """By kind, in the order of `KINDS`."""
    works: Mapping[str, int]
    """By version type: ORI, MOD."""
    acknowledgements: Mapping[str, int]
    """By status, in the order of the table."""
    findings: Mapping[str, int]
    """By rule, V1 to V11."""
    controlled: Mapping[str, Decimal]
    """The shares of SPU and SWR in works, in percent, added up by right: pr, mr, sr. They are a control, and no money."""
    others: Mapping[str, Decimal]
    """Those of OPU and OWR."""
    works_without: Mapping[str, int]
    """By right, works of which each share is blank."""
    works_off: Mapping[str, int]
    """By right, works whose shares add up to neither nothing nor about the whole (V3, V4, V5)."""

    def columns(self) -> Dict[str, Union[int, Decimal]]:
        """All numbers in one row, sums first: `transactions`, `transactions_NWR`, `controlled_pr` and so on."""
        row: Dict[str, Union[int, Decimal]] = {"groups": self.groups}
        for name in ("transactions", "records", "works", "acknowledgements", "findings"):
            counts: Mapping[str, int] = getattr(self, name)
            row[name] = sum(counts.values())
            row.update((f"{name}_{key}", count) for key, count in counts.items())
        for name in ("controlled", "others", "works_without", "works_off"):
            row.update((f"{name}_{right}", value) for right, value in getattr(self, name).items())
        return row


def _percent(hundredths: int) -> Decimal:
    return Decimal(hundredths).scaleb(-2)


def summary(source: Source, limits: Limits = NO_LIMITS, mapped: bool = False) -> Summary:
    """What stands in a path or in bytes, in numbers, with the verdict. Memory holds the text and one transaction.

        row = cwr.summary("CW240001PB_052.V21").columns()

    Raises `ValueError` where a limit isn't in its range, `MemoryError` and `OSError`.
    """
    text, raw = Text(source, mapped), _library.Verdict()
    needed: Sequence[Tuple[str, ...]] = (_TYPES, tuple(KINDS), _VERSIONS, _STATUSES, _RULES, _RIGHTS, _RIGHTS, _RIGHTS, _RIGHTS)
    count = 1 + sum(len(names) for names in needed)
    memory = _library.room(8 * count)
    found = _library.summary(text.at, text.size, *limits_of(limits), memory, count, ctypes.byref(raw))
    verdict = told(raw)
    if found != count:
        raise ImportError(f"the library has {found} columns, and this package {count}")
    numbers: Iterator[int] = iter(memory[:count])
    groups = next(numbers)
    types, kinds, versions, statuses, rules, controlled, others, without, off = ({name: next(numbers) for name in names} for names in needed)
    return Summary(
        verdict, groups, types, kinds, versions, statuses, rules,
        {right: _percent(number) for right, number in controlled.items()},
        {right: _percent(number) for right, number in others.items()},
        without, off,
    )  # fmt: skip
