"""Measures how busy `replicate` keeps the processors: `PYTHONPATH=python/src python3 python/tests/speed_runs.py [RUNS]`.

Not a test: figures depend on what else the machine does. It makes 1,000 replications of examples/pool.json until tick 20,000, and
as many bare programs by `xargs -P` with as many at once, by turns in ten parts, and tells the share of the speed that is left.
"""

from __future__ import annotations

import subprocess
import sys
import time

import twarp
from twarp.program import find

UNTIL = 20_000
PARTS = 10


def bare(runs: int, many: int) -> float:
    line = ["xargs", "-P", str(many), "-I{}", find(), "stats", "examples/pool.json", "--until", str(UNTIL), "--json"]
    begun = time.perf_counter()
    subprocess.run(line, input="\n".join(map(str, range(runs))), stdout=subprocess.DEVNULL, text=True, check=True)
    return time.perf_counter() - begun


def replicated(runs: int) -> float:
    pool = twarp.Network.load("examples/pool.json")
    begun = time.perf_counter()
    twarp.replicate(lambda seeds: pool, runs, UNTIL, progress=False)
    return time.perf_counter() - begun


def main(runs: int) -> None:
    many = twarp.processors()
    shares = []
    programs = replications = 0.0
    for _ in range(PARTS):
        alone, ours = bare(runs // PARTS, many), replicated(runs // PARTS)
        programs, replications = programs + alone, replications + ours
        shares.append(alone / ours)
    print(
        f"{runs} runs, {many} at once: bare programs {programs:.1f} s, replicate {replications:.1f} s, "
        f"{programs / replications:.2f} of the speed (parts {min(shares):.2f} to {max(shares):.2f})"
    )


if __name__ == "__main__":
    main(int(sys.argv[1]) if len(sys.argv) > 1 else 1_000)
