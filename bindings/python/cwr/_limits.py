"""Limits."""
from typing import Tuple

NO_LIMITS = (99_999_999, 99_999, 999_999)
"""The most records, groups, and records of one transaction that any transmission may have."""

Limits = Tuple[int, int, int]


def limits_of(limits: Limits) -> Limits:
    """The limits, each in the range of the library's numbers."""
    records, groups, transaction = limits
    if not all(isinstance(it, int) and 0 <= it < 2**32 for it in (records, groups, transaction)):
        raise ValueError("a limit isn't in its range")
    return records, groups, transaction
