#!/usr/bin/env python3
"""shares.py [--workers N] [--processes] FILE..: checks files on several processors or machines, and adds up what each publisher
holds of the works in them: a table of works and of performing, mechanical and synchronization shares in percent.

By dask.distributed (Debian's python3-distributed) the files go to a local cluster of N workers on loopback addresses, or to the
cluster whose scheduler CLUSTER names (`tcp://10.0.0.1:8786`), which must see the files under the same names. With --processes, or
where dask isn't there, N processes of the standard library take them. The answers are the same.
"""
import argparse
import os
import sys
import time
from concurrent.futures import ProcessPoolExecutor
from decimal import Decimal
from typing import Dict, List, Tuple

import cwr


# What a publisher holds: in how many works, and the sums of its performing, mechanical and synchronization shares in percent.
Held = Tuple[int, Decimal, Decimal, Decimal]
Table = Dict[str, Held]

NOTHING: Held = (0, Decimal(0), Decimal(0), Decimal(0))


def add(held: Table, name: str, more: Held) -> None:
    """Adds what a publisher holds to a table."""
    held[name] = tuple(map(sum, zip(held.get(name, NOTHING), more)))


def summary(path: str) -> Tuple[str, str, Table]:
    """A file's name, the line of its verdict, and its table of publishers. Of a file that isn't good the table is empty."""
    document = cwr.Document(path)
    held: Table = {}
    if document:
        for transaction in document:
            for record in transaction.of_kind("SPU"):
                shares = (record.value(name) or Decimal(0) for name in ("pr share", "mr share", "sr share"))
                add(held, record["publisher name"], (1, *shares))
    return path, str(document.verdict), held


def together(tables) -> Table:
    """The sums of tables."""
    held: Table = {}
    for table in tables:
        for name, more in table.items():
            add(held, name, more)
    return held


def part(paths: List[str]):
    """The verdicts on some files, and the sums of their tables: one task of the cluster."""
    found = [summary(it) for it in paths]
    return [(path, verdict) for path, verdict, _ in found], together(table for _, _, table in found)


def parts(paths: List[str], count: int) -> List[List[str]]:
    """The files in so many parts of about the same size."""
    sized = sorted(paths, key=os.path.getsize, reverse=True)
    return [it for it in (sized[i::count] for i in range(count)) if it]


def by_dask(paths, workers):
    from dask.distributed import Client, LocalCluster

    where = os.environ.get("CLUSTER")
    if where:
        with Client(where) as client:
            return client.gather(client.map(part, parts(paths, 8 * len(client.scheduler_info()["workers"]))))
    settings = {"n_workers": workers, "threads_per_worker": 1, "host": "127.0.0.1", "dashboard_address": None}
    with LocalCluster(**settings) as cluster, Client(cluster) as client:
        client.wait_for_workers(workers)
        start = time.perf_counter()
        found = client.gather(client.map(part, parts(paths, 8 * workers)))
        print(f"on {workers} workers: {time.perf_counter() - start:.2f} s", file=sys.stderr)
        return found


def by_processes(paths, workers):
    with ProcessPoolExecutor(workers) as pool:
        list(pool.map(part, [[]] * workers))
        start = time.perf_counter()
        found = list(pool.map(part, parts(paths, 8 * workers)))
        print(f"in {workers} processes: {time.perf_counter() - start:.2f} s", file=sys.stderr)
        return found


def main():
    words = argparse.ArgumentParser(description=__doc__, formatter_class=argparse.RawDescriptionHelpFormatter)
    words.add_argument("--workers", type=int, default=2)
    words.add_argument("--processes", action="store_true")
    words.add_argument("files", nargs="+", metavar="FILE")
    asked = words.parse_args()
    run = by_processes
    if not asked.processes:
        try:
            import dask.distributed  # noqa: F401

            run = by_dask
        except ImportError:
            print("dask.distributed isn't there (Debian's python3-distributed has it): processes are taken", file=sys.stderr)
    found = run(asked.files, asked.workers)
    verdicts = sorted(it for told, _ in found for it in told)
    for path, verdict in verdicts:
        if not verdict.startswith("GOOD"):
            print(f"{path}: {verdict}")
    for name, (works, performing, mechanical, synchronization) in sorted(together(table for _, table in found).items()):
        print(f"{name}: works {works} pr {performing} mr {mechanical} sr {synchronization}")
    print(f"FILES {len(verdicts)} good {sum(verdict.startswith('GOOD') for _, verdict in verdicts)}")


if __name__ == "__main__":
    main()
