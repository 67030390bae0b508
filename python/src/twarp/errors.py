"""What can go wrong, each as an exception of its own, with what the program said.

All are below `TwarpError`, and all can be pickled, so they come back whole from another process.
"""

from __future__ import annotations

import signal as _signal
from typing import Any, Optional

__all__ = [
    "LimitFault",
    "MemoryRefused",
    "NetworkError",
    "NetworkWarning",
    "ProgramError",
    "ProgramFailed",
    "ProgramKilled",
    "ProgramMissing",
    "ProgramTooOld",
    "RequestError",
    "TwarpError",
]


class TwarpError(Exception):
    """Whatever this package raises of its own.

    >>> issubclass(NetworkError, TwarpError) and issubclass(ProgramMissing, TwarpError)
    True
    """


class NetworkError(TwarpError, ValueError):
    """The program refuses the network.

    `number` and `name` are those of the refusal (docs/FORMATS.md, "Refusals"), `place` is where the
    first fault stands, `reason` why it is one, in the words of `twarp check`.

    >>> fault = NetworkError(21, "BadShape", 'components[0] "q"', 'no model "quue"')
    >>> fault.number, fault.place
    (21, 'components[0] "q"')
    >>> print(fault)
    21 BadShape: components[0] "q": no model "quue"
    """

    def __init__(self, number: int, name: str, place: str, reason: str) -> None:
        super().__init__(number, name, place, reason)
        self.number = number
        self.name = name
        self.place = place
        self.reason = reason

    def __str__(self) -> str:
        told = ": ".join(part for part in (self.place, self.reason) if part)
        return f"{self.number} {self.name}: {told}" if told else f"{self.number} {self.name}"


class NetworkWarning(UserWarning):
    """What is likely to be a mistake in a network: its place, and what is odd there, in the words of
    `twarp check`. The network can be simulated.

    >>> issubclass(NetworkWarning, UserWarning)
    True
    """


class RequestError(TwarpError, ValueError):
    """The program refuses what it was asked: an end tick, a component's name, a script.

    `number` and `name` are those of the refusal: 15 NoSuch of a component or figure that is none, 22
    BadScript of a line of a script, 23 BadLine of a number out of range. `asked` is what was asked.

    >>> print(RequestError(23, "BadLine", "stats --until -1"))
    23 BadLine: stats --until -1
    """

    def __init__(self, number: int, name: str, asked: str) -> None:
        super().__init__(number, name, asked)
        self.number = number
        self.name = name
        self.asked = asked

    def __str__(self) -> str:
        return f"{self.number} {self.name}: {self.asked}"


class LimitFault(TwarpError):
    """A component of the run met a limit: its next step would go past it, and the run ends there.

    `component` is the component's (flat) name. `tick` and `microstep` are the time of its last step,
    and `stamp` is both, as a tuple that sorts. `limit` is `"microstep"` (the network's `micro_limit`)
    or `"tick"` (the greatest tick). `partial` is what there is of the run up to there, where the call
    that raised this gives a frame or figures; else None.

    >>> fault = LimitFault("b", 3, 3, "microstep")
    >>> fault.stamp
    (3, 3)
    >>> print(fault)
    microstep limit: b at 3.3
    """

    def __init__(self, component: str, tick: int, microstep: int, limit: str) -> None:
        super().__init__(component, tick, microstep, limit)
        self.component = component
        self.tick = tick
        self.microstep = microstep
        self.limit = limit
        self.partial: Any = None

    @property
    def stamp(self) -> tuple[int, int]:
        """The tick and the microstep of the component's last step."""
        return (self.tick, self.microstep)

    def __str__(self) -> str:
        return f"{self.limit} limit: {self.component} at {self.tick}.{self.microstep}"


class MemoryRefused(TwarpError, MemoryError):
    """The program was refused memory (4 OutOfMemory), or a process held too many nodes (12 Full).

    >>> print(MemoryRefused(4, "OutOfMemory"))
    4 OutOfMemory: the program was refused memory
    """

    def __init__(self, number: int, name: str) -> None:
        super().__init__(number, name)
        self.number = number
        self.name = name

    def __str__(self) -> str:
        why = "a process held too many nodes" if self.number == 12 else "the program was refused memory"
        return f"{self.number} {self.name}: {why}"


class ProgramError(TwarpError):
    """The program itself is missing, too old, was killed, or failed.

    >>> issubclass(ProgramKilled, ProgramError)
    True
    """


class ProgramMissing(ProgramError):
    """There is no program to start; the text says where it was looked for and how to build it.

    >>> raise ProgramMissing("no program twarp on the path")
    Traceback (most recent call last):
    twarp.errors.ProgramMissing: no program twarp on the path
    """


class ProgramTooOld(ProgramError):
    """The program does not tell what this package needs; the text says what.

    >>> raise ProgramTooOld("build it again")
    Traceback (most recent call last):
    twarp.errors.ProgramTooOld: build it again
    """


class ProgramKilled(ProgramError):
    """The program was ended by a signal: killed by hand, by the system, or for want of memory.

    `signal` is its number, `said` what the program had written on standard error.

    >>> print(ProgramKilled(9, ""))
    the program was killed by signal 9 (SIGKILL)
    """

    def __init__(self, signal: int, said: str) -> None:
        super().__init__(signal, said)
        self.signal = signal
        self.said = said

    def __str__(self) -> str:
        try:
            name = f" ({_signal.Signals(self.signal).name})"
        except ValueError:
            name = ""
        return f"the program was killed by signal {self.signal}{name}{_behind(self.said)}"


class ProgramFailed(ProgramError):
    """The program ended as it never should, or answered what is no answer of twarp.

    `status` is its exit status, or None where it answered wrongly; `said` what it said, or what was
    wrong.

    >>> print(ProgramFailed(127, "not found"))
    the program ended with status 127: not found
    """

    def __init__(self, status: Optional[int], said: str) -> None:
        super().__init__(status, said)
        self.status = status
        self.said = said

    def __str__(self) -> str:
        if self.status is None:
            return f"the program gave no answer of twarp{_behind(self.said)}"
        return f"the program ended with status {self.status}{_behind(self.said)}"


def _behind(said: str) -> str:
    return f": {said.strip()}" if said.strip() else ""
