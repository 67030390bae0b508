"""Finds the program `twarp`, starts it, and turns the ways in which it can end into exceptions.

The network goes to the program by a pipe, and so does what it answers: no file is written.
"""

from __future__ import annotations

import errno
import os
import re
import shutil
import signal
import subprocess
import threading
import weakref
from collections.abc import Sequence
from types import TracebackType
from typing import IO, Optional

from .errors import (
    LimitFault,
    MemoryRefused,
    NetworkError,
    ProgramFailed,
    ProgramKilled,
    ProgramMissing,
    RequestError,
)

__all__ = ["Process", "answer", "find", "limit_fault", "version"]

BUILD = (
    "build it at the top of the repository of twarp by `(cd crates/twarp && rt run -- demo)`, and set TWARP to "
    "crates/twarp/out/twarp, or put that folder on the path"
)

# Refusals of the network itself, for which `check` has words.
_OF_NETWORK = frozenset((5, 6, 7, 8, 9, 10, 11, 17, 18, 20, 21))

# What a pipe takes without a reader.
_PIPE = 65536

_REFUSAL = re.compile(r"^twarp: (\d+) (\w+)(?: (.*))?$", re.MULTILINE)
_FAULT = re.compile(r"^fault: (microstep|tick) limit: (\S+) at (\d+)\.(\d+)$", re.MULTILINE)
_PLACE = re.compile(
    r"(?P<place>[a-z]+\[\d+\](?:\.[a-z]+\[\d+\])*(?: \"(?:[^\"\\]|\\.)*\")?"
    r"(?:: [a-z]+(?:\[\d+\])?(?:\.[a-z]+)?, line \d+, column \d+)?|[^:]*): (?P<reason>.*)",
    re.DOTALL,
)


def find() -> str:
    """The path of the program: what `TWARP` in the environment says, else `twarp` on the path.

    Raises `ProgramMissing` where there is none.

    >>> import os
    >>> os.access(find(), os.X_OK)
    True
    """
    said = os.environ.get("TWARP")
    found = shutil.which(said or "twarp")
    if found is not None:
        return found
    where = f"TWARP is {said!r}, which is no program" if said else "TWARP is not set, and no twarp is on the path"
    raise ProgramMissing(f"{where}: {BUILD}")


def version() -> str:
    """The program's version and the kit that proves it, as `twarp --version` tells.

    >>> version().split()[0]
    'twarp'
    """
    return answer(["--version"], b"").out.decode(errors="replace").strip()


class Process:
    """A started program: its answer is read from `out`, and `end` says how it ended.

    `words` are the words of its command line, in which `/dev/stdin` stands for the network, whose text
    is `network`. A word `{}` stands for a file with the text `script`. As a context it leaves no
    process behind, however it is left.

    >>> with Process(["check", "/dev/stdin"], b"{") as process:
    ...     words = process.out.read()
    ...     process.end()
    (2, 'twarp: 20 NotJson\\n')
    """

    def __init__(self, words: Sequence[str], network: bytes, script: Optional[bytes] = None) -> None:
        self._feeders: list[threading.Thread] = []
        try:
            pipe = self._begin(words, script)
            assert self._popen.stdin is not None and self._popen.stdout is not None
            self.out: IO[bytes] = self._popen.stdout
            if pipe is not None and script is not None:
                self._feed(pipe, script)
            self._hand(self._popen.stdin, network)
        except BaseException:
            self.close()
            raise

    def _begin(self, words: Sequence[str], script: Optional[bytes]) -> Optional[IO[bytes]]:
        """Starts the program, with one more pipe where there is a script for it: its end for us."""
        if script is None:
            self._own(_start([find(), *words], ()))
            return None
        theirs, ours = os.pipe()
        try:
            line = [find(), *(f"/dev/fd/{theirs}" if word == "{}" else word for word in words)]
            self._own(_start(line, (theirs,)))
        except BaseException:
            os.close(ours)
            raise
        finally:
            os.close(theirs)
        return os.fdopen(ours, "wb")

    def _own(self, popen: subprocess.Popen[bytes]) -> None:
        self._popen = popen
        self._ended = weakref.finalize(self, _stop, popen)

    def _hand(self, pipe: IO[bytes], network: bytes) -> None:
        """Hands the network to the program, in a thread where the pipe may not take it at once."""
        if len(network) <= _PIPE:
            _write(pipe, network)
        else:
            self._feed(pipe, network)

    def _feed(self, pipe: IO[bytes], text: bytes) -> None:
        feeder = threading.Thread(target=_write, args=(pipe, text), daemon=True)
        feeder.start()
        self._feeders.append(feeder)

    def end(self) -> tuple[int, str]:
        """Waits until the program has ended: its status (a signal's number, negated, where it was
        killed), and what it said on standard error. What it still writes is not read.

        >>> with Process(["seq"], b"") as process:
        ...     process.end()
        (2, 'twarp: 23 BadLine\\n')
        """
        assert self._popen.stderr is not None
        self.out.close()
        said = self._popen.stderr.read().decode(errors="replace")
        status = self._popen.wait()
        self.close()
        return status, said

    def end_soon(self, seconds: float) -> Optional[tuple[int, str]]:
        """The same where the program ends so soon; else it is ended, and the answer is None. Neither is
        there an answer where it ends because nobody reads what it writes.

        >>> with Process(["seq"], b"") as process:
        ...     process.end_soon(5)
        (2, 'twarp: 23 BadLine\\n')
        """
        self.out.close()
        try:
            self._popen.wait(seconds)
        except subprocess.TimeoutExpired:
            self.close()
            return None
        status, said = self.end()
        return None if status in (5, -signal.SIGPIPE) else (status, said)

    def close(self) -> None:
        """Ends the program where it still runs, and closes its pipes. It may be called again.

        >>> process = Process(["stats"], b"")
        >>> process.close()
        """
        if hasattr(self, "_ended"):
            self._ended()
        for feeder in self._feeders:
            feeder.join()

    def __enter__(self) -> Process:
        return self

    def __exit__(
        self,
        kind: Optional[type[BaseException]],
        value: Optional[BaseException],
        trace: Optional[TracebackType],
    ) -> None:
        self.close()


def _start(line: list[str], kept: tuple[int, ...]) -> subprocess.Popen[bytes]:
    try:
        return subprocess.Popen(
            line,
            stdin=subprocess.PIPE,
            stdout=subprocess.PIPE,
            stderr=subprocess.PIPE,
            pass_fds=kept,
        )
    except OSError as error:
        if error.errno in (errno.ENOENT, errno.EACCES, errno.ENOEXEC):
            raise ProgramMissing(f"{line[0]} cannot be started: {error.strerror}: {BUILD}") from error
        raise ProgramFailed(None, f"it cannot be started: {error.strerror}") from error


def _write(pipe: IO[bytes], text: bytes) -> None:
    """Writes all of a text and closes the pipe; a program that is gone is told by its status."""
    try:
        with pipe:
            pipe.write(text)
    except OSError:
        pass


def _stop(popen: subprocess.Popen[bytes]) -> None:
    """Ends a program where it still runs, and closes what is read of it; who feeds it closes what he feeds."""
    if popen.poll() is None:
        popen.kill()
        popen.wait()
    for pipe in (popen.stdout, popen.stderr):
        if pipe is not None:
            pipe.close()


class Answer:
    """What a program answered that has ended well: what it wrote, and the fault that its run met."""

    __slots__ = ("fault", "out")

    def __init__(self, out: bytes, fault: Optional[LimitFault]) -> None:
        self.out = out
        self.fault = fault


def answer(words: Sequence[str], network: bytes, script: Optional[bytes] = None) -> Answer:
    """Starts the program, waits for it and gives what it answers; for answers that are short.

    Raises `NetworkError`, `RequestError`, `MemoryRefused` and the kinds of `ProgramError`; a run that
    meets a limit raises nothing, and is told beside the answer.

    >>> network = b'{"format":"tw-1","micro_limit":9,"components":[],"couplings":[],"inputs":[]}'
    >>> answer(["check", "/dev/stdin"], network).out
    b'ok: 0 components, 0 couplings, 0 inputs\\n'
    """
    with Process(words, network, script) as process:
        out = _read(process.out)
        status, said = process.end()
    return Answer(out, outcome(status, said, words, network))


def _read(pipe: IO[bytes]) -> bytes:
    """All that comes, to its end. It is read in pieces, so that Python hears a signal between two of them: `read`
    alone hears none while there is always more to read."""
    pieces: list[bytes] = []
    while not pieces or pieces[-1]:
        pieces.append(os.read(pipe.fileno(), _PIPE))
    return b"".join(pieces)


def outcome(status: int, said: str, words: Sequence[str], network: bytes) -> Optional[LimitFault]:
    """What a program's end means: nothing, the fault that its run met, or what is raised.

    >>> outcome(0, "", ["stats"], b"") is None
    True
    >>> outcome(3, "fault: tick limit: b at 3.0\\n", ["stats"], b"")
    LimitFault('b', 3, 0, 'tick')
    """
    if status == 0:
        return None
    if status < 0:
        raise ProgramKilled(-status, said)
    fault = limit_fault(said) if status == 3 else None
    if fault is not None:
        return fault
    refusal = _REFUSAL.search(said)
    if refusal is None:
        raise ProgramFailed(status, said)
    number, name, more = int(refusal[1]), refusal[2], refusal[3]
    if status == 4:
        raise MemoryRefused(number, name)
    if status == 2 and number in _OF_NETWORK:
        raise _network_error(number, name, network)
    if status == 2 and number != 19:
        asked = " ".join(word for word in words if word not in ("/dev/stdin", "{}", "--json"))
        raise RequestError(number, name, f"{more} of {asked}" if more else asked)
    raise ProgramFailed(status, said)


def limit_fault(said: str) -> Optional[LimitFault]:
    """The fault that a line of the program tells; None where there is no such line.

    >>> limit_fault("fault: microstep limit: b at 3.3\\n").stamp
    (3, 3)
    """
    told = _FAULT.search(said)
    if told is None:
        return None
    return LimitFault(told[2], int(told[3]), int(told[4]), told[1])


def _network_error(number: int, name: str, network: bytes) -> NetworkError:
    """The refusal of a network, with the place and the reason that `check` has for it."""
    with Process(["check", "/dev/stdin"], network) as process:
        words = process.out.read().decode(errors="replace").strip()
        process.end()
    told = _PLACE.fullmatch(words)
    if told is None:
        return NetworkError(number, name, "", words)
    return NetworkError(number, name, told["place"], told["reason"])
