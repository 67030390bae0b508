"""What several tests use: the examples, and the programs that a test has started."""

from __future__ import annotations

import os
import time
from collections.abc import Iterator
from contextlib import contextmanager, suppress
from pathlib import Path

import twarp

TOP = Path(__file__).resolve().parents[2]


def examples() -> list[tuple[str, int]]:
    """The networks of examples/, each with its end tick."""
    rows = [line.split() for line in (TOP / "examples" / "runs.txt").read_text().splitlines()]
    return [(row[0], int(row[1])) for row in rows if row and row[0] != "#"]


def network(name: str) -> twarp.Network:
    return twarp.Network.load(TOP / "examples" / name)


def long_run(**options: object) -> twarp.Run:
    """A run that takes minutes."""
    return twarp.simulate(network("sixty-four-hops.json"), 10**8, **options)  # type: ignore[arg-type]


def short_run(until: int = 5) -> twarp.Run:
    return twarp.simulate(network("gen-tally.json"), until)


def children(process: int) -> list[int]:
    """The processes that a process has started and that are still there, also as zombies."""
    found = []
    for task in Path(f"/proc/{process}/task").iterdir():
        with suppress(OSError):  # a thread that has ended meanwhile
            found += [int(child) for child in (task / "children").read_text().split()]
    return found


_others: set[int] = set()


def know_others() -> None:
    """What runs before a test is not of that test."""
    _others.clear()
    _others.update(children(os.getpid()))


def own_programs() -> list[int]:
    """The programs that the present test has started and that are still there."""
    return [child for child in children(os.getpid()) if child not in _others]


def wait_for(condition: object, seconds: float = 20) -> None:
    """Waits until a call answers what is true."""
    end = time.monotonic() + seconds
    while not condition():  # type: ignore[operator]
        assert time.monotonic() < end, "it did not come"
        time.sleep(0.01)


@contextmanager
def program(path: object) -> Iterator[None]:
    """Another program for as long as the context lasts."""
    before = os.environ["TWARP"]
    os.environ["TWARP"] = str(path)
    try:
        yield
    finally:
        os.environ["TWARP"] = before


def script(path: Path, text: str) -> Path:
    """A program that is a shell script around the real one, `$REAL`."""
    path.write_text(f"#!/bin/bash\nREAL={os.environ['TWARP']}\n{text}\n")
    path.chmod(0o755)
    return path
