#!/usr/bin/env python3
"""make_files.py FOLDER COUNT WORKS [SEED]: makes so many good files with so many works each, and one in a hundred of them cut short."""
import datetime
import os
import random
import sys
from decimal import Decimal

import cwr

PUBLISHERS = [f"MUSIC HOUSE {i:02}" for i in range(40)]


def work(i, draw):
    """The records of a work with one publisher and one writer."""
    publisher, half = draw.choice(PUBLISHERS), Decimal(50)
    number = f"P{PUBLISHERS.index(publisher):03}"
    return [
        cwr.Record("NWR", {"title": f"SONG NUMBER {i}", "submitter work number": str(i), "version type": "ORI"}),
        cwr.Record("SPU", {"publisher sequence": 1, "interested party number": number, "publisher name": publisher, "publisher type": "E",
                           "pr share": half, "mr share": 100, "sr share": 100}),
        cwr.Record("SPT", {"interested party number": number, "pr collection share": half, "mr collection share": 100,
                           "sr collection share": 100, "inclusion exclusion": "I", "tis code": 2136, "sequence": 1}),
        cwr.Record("SWR", {"interested party number": "W1", "last name": "DOE", "first name": "JO", "designation": "CA", "pr share": half,
                           "mr share": 0, "sr share": 0}),
        cwr.Record("SWT", {"interested party number": "W1", "pr collection share": half, "inclusion exclusion": "I", "tis code": 2136, "sequence": 1}),
        cwr.Record("PWR", {"publisher interested party number": number, "publisher name": publisher, "writer interested party number": "W1"}),
    ]


def main(folder, count, works, seed="1"):
    draw, day = random.Random(int(seed)), datetime.date(2024, 1, 2)
    os.makedirs(folder, exist_ok=True)
    for i in range(int(count)):
        head = cwr.Record("HDR", {"sender type": "PB", "sender id": "123456789", "sender name": "HOUSE", "creation date": day,
                                  "creation time": datetime.time(1), "transmission date": day})
        records = [head, cwr.Record("GRH", {"transaction type": "NWR"})]
        for j in range(int(works)):
            records += work(i * int(works) + j, draw)
        text = cwr.write([*records, cwr.Record("GRT")])
        with open(os.path.join(folder, f"CW{i:08}.V21"), "wb") as it:
            it.write(text[: -len(text) // 3] if i % 100 == 99 else text)


if __name__ == "__main__":
    if not 4 <= len(sys.argv) <= 5:
        sys.exit(__doc__)
    main(*sys.argv[1:])
