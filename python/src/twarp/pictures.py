"""Pictures of runs, as SVG, which a notebook shows and a browser opens."""

from __future__ import annotations

import html
import operator
import os
import re
from collections.abc import Iterable
from typing import Literal, Optional, SupportsIndex, Union

from .network import Network
from .program import answer

__all__ = ["Picture", "picture_of_time_warp"]

# The greatest end tick that a run may have.
_LAST = 1_099_511_627_774


class Picture:
    """A picture as SVG: `str` gives its text, and a notebook shows it.

    >>> Picture("<svg/>")
    Picture(6 characters of SVG)
    """

    def __init__(self, svg: str) -> None:
        self.svg = svg

    def save(self, path: Union[str, os.PathLike[str]]) -> None:
        """Writes the picture to a file, which any browser opens.

        Raises `OSError` where it cannot be written.

        >>> import os, tempfile
        >>> with tempfile.TemporaryDirectory() as folder:
        ...     Picture("<svg/>").save(os.path.join(folder, "run.svg"))
        """
        with open(path, "w", encoding="utf-8", newline="\n") as file:
            file.write(self.svg)

    def _repr_svg_(self) -> str:
        return self.svg

    def __str__(self) -> str:
        return self.svg

    def __repr__(self) -> str:
        return f"Picture({len(self.svg)} characters of SVG)"


def picture_of_time_warp(
    network: Network,
    script: Union[None, str, os.PathLike[str], Iterable[str]] = None,
    *,
    seed: Optional[SupportsIndex] = None,
    steps: Optional[SupportsIndex] = None,
    until: SupportsIndex = _LAST,
    cancel: Literal["aggressive", "lazy"] = "aggressive",
    title: str = "network",
) -> Picture:
    """A picture of a run of Time Warp that is driven by hand: steps, rollbacks, messages and global
    virtual time (docs/PICTURES.md).

    The actions are those of a `script`: its text, its lines, or the path of its file (an
    `os.PathLike`); or `steps` actions at random, which `seed` gives. Only steps before the tick
    `until` can be made. `cancel` says how the messages of steps that are taken back are cancelled. `title` is what stands above it.

    Raises `TypeError` where there are not either a script or a seed and steps, `RequestError` for a
    script with a line that is none (22) or a number out of range (23), `NetworkError` for a network
    that the program refuses, and else what `simulate` says.

    >>> from twarp import Network
    >>> row = Network().add("g", "gen", period=2, value=5).add("t", "tally").couple("g", "t")
    >>> picture_of_time_warp(row, ["step g", "post g", "deliver t 0"]).svg[:4]
    '<svg'
    >>> picture_of_time_warp(row, seed=1, steps=20).svg[:4]
    '<svg'
    """
    words = ["draw", "/dev/stdin", "--until", str(operator.index(until)), "--cancel", cancel]
    if (script is None) == (seed is None) or (seed is None) != (steps is None):
        raise TypeError("a picture of Time Warp takes either a script, or a seed and steps")
    text = None
    if seed is not None and steps is not None:
        words += ["--seed", str(operator.index(seed)), "--steps", str(operator.index(steps))]
    elif isinstance(script, os.PathLike):
        words += ["--script", os.fspath(script)]
    elif script is not None:
        words += ["--script", "{}"]
        text = (script if isinstance(script, str) else "".join(f"{line}\n" for line in script)).encode()
    return titled(answer(words, network.to_json().encode("ascii"), text).out, title)


def titled(svg: bytes, title: str) -> Picture:
    """The picture that the program drew, with a title; it knows the network as stdin, from which it came.

    >>> titled(b"<svg><title>stdin</title></svg>", "a < b").svg
    '<svg><title>a &lt; b</title></svg>'
    """
    shown = html.escape(title, quote=False)
    return Picture(re.sub(r'(<title>|class="t">)stdin(?=<)', lambda told: told[1] + shown, svg.decode()))
