"""Measures what a call costs and how fast a long table is read: `PYTHONPATH=python/src python3 python/tests/speed.py [ROWS]`.

Not a test: figures depend on what else the machine does. It writes the table to a temporary file once, reads it by pandas alone,
and reads it from the program; and it takes the least of forty calls of a small network, and of the bare program.
"""

from __future__ import annotations

import os
import subprocess
import sys
import tempfile
import time
from typing import Callable

import pandas as pd

import twarp


def seconds(what: Callable[[], object], times: int) -> float:
    taken = []
    for _ in range(times):
        begun = time.perf_counter()
        what()
        taken.append(time.perf_counter() - begun)
    return min(taken)


def calls() -> None:
    pool = twarp.Network.load("examples/pool.json")
    words = [twarp.program.find(), "stats", "/dev/stdin", "--until", "40", "--json"]
    text = pool.to_json().encode()
    bare = seconds(lambda: subprocess.run(words, input=text, stdout=subprocess.PIPE, check=True), 40)
    call = seconds(lambda: twarp.simulate(pool, 40).stats().figures, 40)
    print(f"a call of stats: {call * 1000:.2f} ms, of the bare program {bare * 1000:.2f} ms")


def tables(rows: int) -> None:
    hops = twarp.Network.load("examples/sixty-four-hops.json")
    for ask, flags, share in (("table", [], 17.45), ("items", ["--items"], 12.2), ("words", ["--words"], 11.35)):
        until = int(rows / share)
        words = [twarp.program.find(), "table", "examples/sixty-four-hops.json", "--until", str(until), *flags]
        with tempfile.TemporaryDirectory() as folder:
            path = os.path.join(folder, "table.csv")
            with open(path, "wb") as file:
                begun = time.perf_counter()
                subprocess.run(words, stdout=file, check=True)
                alone = time.perf_counter() - begun
            begun = time.perf_counter()
            length = len(pd.read_csv(path, engine="c"))
            read = time.perf_counter() - begun
        begun = time.perf_counter()
        assert len(getattr(twarp.simulate(hops, until), ask)()) == length
        both = time.perf_counter() - begun
        print(
            f"{ask}: {length} rows; the program alone {alone:.2f} s, read_csv of the file {read:.2f} s, "
            f"run.{ask}() {both:.2f} s, {read / both:.2f} of the speed"
        )


if __name__ == "__main__":
    calls()
    tables(int(sys.argv[1]) if len(sys.argv) > 1 else 10_000_000)
