"""CWR 2.1 transmissions, by a library whose answers are proved.

    import cwr

    verdict = cwr.check("CW240001PB_052.V21")         # true where it is good
    for transaction in cwr.read("CW240001PB_052.V21"):
        for record in transaction.of_kind("SWR"):
            print(record["last name"], record.share("pr share"))   # DOE 33.05 (percent)
    print(cwr.explain("CW240001PB_052.V21"))
    text = cwr.write(records)                         # with all numbers made
    text = cwr.select("CW240001PB_052.V21", lambda transaction: transaction.header.kind == "NWR")
    print(cwr.summary("CW240001PB_052.V21").columns())  # groups, transactions by type, records by kind, shares, ...

A source is a path, or bytes that are there already. Sizes are bytes, numbers of records and fields count from 1, shares are in
percent. A text is judged up to the end of its transmission; what follows isn't looked at.
"""
from ._documents import Document, check, findings, read
from ._layouts import KINDS, Field, Type, layout
from ._limits import NO_LIMITS
from ._records import Place, Record, Transaction
from ._reports import explain, lint, report, show, to_json
from ._selecting import select
from ._summaries import Summary, summary
from ._verdicts import Ending, Error, Finding, Level, RefusedError, TruncatedError, Verdict, WriteError
from ._writing import from_json, write

__version__ = "0.1.0"

__all__ = [
    "KINDS",
    "NO_LIMITS",
    "Document",
    "Ending",
    "Error",
    "Field",
    "Finding",
    "Level",
    "Place",
    "Record",
    "RefusedError",
    "Summary",
    "Transaction",
    "TruncatedError",
    "Type",
    "Verdict",
    "WriteError",
    "check",
    "explain",
    "findings",
    "from_json",
    "layout",
    "lint",
    "read",
    "report",
    "select",
    "show",
    "summary",
    "to_json",
    "write",
]
