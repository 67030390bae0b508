"""Reads the tables that the program writes, while it writes them."""

from __future__ import annotations

import fcntl
import os
import signal
import threading
from collections.abc import Callable, Iterator, Mapping, Sequence
from contextlib import contextmanager
from types import FrameType
from typing import IO, Any, Literal, Optional

import pandas as pd

from .errors import LimitFault, ProgramFailed
from .program import Process, outcome

__all__ = ["KINDS", "read_table"]

#: The kinds of a record, in the order in which a frame's category has them.
KINDS = ("out", "int", "ext", "con")

# The column behind the component, and what its cells are: the kind of a record, or a figure by its name.
_FOURTH = {"kind": pd.CategoricalDtype(list(KINDS)), "figure": "category"}

# What the pipe of a table is asked to hold, so that the program and the reader wait less for one another.
_WIDE = 1 << 20


def read_table(
    words: Sequence[str],
    network: bytes,
    names: Sequence[str],
    last: Mapping[str, str],
    take: Callable[[Any], object],
    rows: Optional[int] = None,
    fourth: Literal["kind", "figure"] = "kind",
) -> Optional[LimitFault]:
    """Starts the program, reads its table as it writes, and hands on the frame: whole, or so many `rows` at
    a time. The answer is the fault that the run met, or None.

    `words` are those of the command line, `names` the components' in their order, `fourth` is the column
    behind the component, `last` the types of the columns behind that; `object` stands for whole numbers
    without a bound.

    Raises what `twarp.simulate` says, but no `LimitFault`.

    >>> network = b'{"format":"tw-1","micro_limit":9,"components":[],"couplings":[],"inputs":[]}'
    >>> words = ["table", "/dev/stdin", "--until", "5", "--items"]
    >>> read_table(words, network, [], {"port": "int64", "value": "int64"}, lambda frame: print(len(frame)))
    0
    """
    dtypes = {
        "tick": "int64",
        "microstep": "int64",
        "component": pd.CategoricalDtype(list(dict.fromkeys(names))),
        fourth: _FOURTH[fourth],
        **{name: "str" if kind == "object" else kind for name, kind in last.items()},
    }
    unbounded = [name for name, kind in last.items() if kind == "object"]
    head = f"tick,microstep,component,{fourth},".encode("ascii")
    wrong: Optional[Exception] = None
    with Process(words, network) as process, _raised_by_signals() as raised:
        try:
            for frame in _frames(_Source(process.out, head, raised), dtypes, rows):
                for name in unbounded:
                    frame[name] = pd.Series([int(number) for number in frame[name]], index=frame.index, dtype=object)
                take(frame)
        except Exception as error:
            wrong = error
        stop = raised[0] if raised else wrong and _lost(wrong)
        if stop is not None:
            raise stop from None
        ended = process.end() if wrong is None else process.end_soon(1)
    fault = outcome(*ended, words, network) if ended else None
    if wrong is not None:
        raise ProgramFailed(None, f"{type(wrong).__name__}: {wrong}") from wrong
    return fault


@contextmanager
def _raised_by_signals() -> Iterator[list[BaseException]]:
    """What Python's handler of SIGINT raises meanwhile. The parser of pandas can lose it and read on, so it is kept
    here to be raised again."""
    raised: list[BaseException] = []
    handler = signal.getsignal(signal.SIGINT)
    if not callable(handler) or threading.current_thread() is not threading.main_thread():
        yield raised
        return
    call = handler

    def keep(number: int, frame: Optional[FrameType]) -> None:
        try:
            call(number, frame)
        except BaseException as error:
            raised.append(error)
            raise

    signal.signal(signal.SIGINT, keep)
    try:
        yield raised
    finally:
        signal.signal(signal.SIGINT, handler)


def _frames(source: _Source, dtypes: Mapping[str, Any], rows: Optional[int]) -> Iterator[Any]:
    """The frames of a table: one, or as many as there are so many rows."""
    options: dict[str, Any] = {"dtype": dict(dtypes), "na_filter": False, "engine": "c"}
    if rows is None:
        yield pd.read_csv(source, **options)
        return
    with pd.read_csv(source, chunksize=rows, **options) as frames:
        yield from frames


def _lost(error: Exception) -> Optional[BaseException]:
    """What ended the reading where that is not for the program to explain. The parser of pandas has its own words
    for what a read raises, and for want of memory."""
    if isinstance(error, MemoryError):
        return error
    if "read(nbytes) on source failed" in str(error):
        return KeyboardInterrupt()
    if "out of memory" in str(error):
        return MemoryError(f"of a table: {error}")
    return None


class _Source:
    """The pipe of a table as pandas reads it: in large pieces, as bytes, which its parser takes as they are."""

    def __init__(self, pipe: IO[bytes], head: bytes, raised: Sequence[BaseException]) -> None:
        """Raises `ValueError` where what comes does not begin with the head of a table. A read raises again
        what was `raised` by a signal before it."""
        self._raised = raised
        self._end = pipe.fileno()
        try:
            fcntl.fcntl(self._end, getattr(fcntl, "F_SETPIPE_SZ", 1031), _WIDE)
        except OSError:
            pass
        self._begun = b""
        while len(self._begun) < len(head):
            piece = os.read(self._end, _WIDE)
            self._begun += piece
            if not piece:
                break
        if not self._begun.startswith(head):
            raise ValueError(f"a table began with {self._begun[:80]!r}")

    def read(self, size: int = -1) -> bytes:
        if self._raised:
            raise self._raised[0]
        if self._begun:
            size = size if size > 0 else len(self._begun)
            begun, self._begun = self._begun[:size], self._begun[size:]
            return begun
        return os.read(self._end, size if size > 0 else _WIDE)

    def __iter__(self) -> _Source:
        return self

    def __next__(self) -> bytes:
        raise StopIteration
