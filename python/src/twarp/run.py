"""Runs: what the program simulates of a network, and the frames that it comes to."""

from __future__ import annotations

import html
import json
import re
from collections.abc import Generator, Mapping, Sequence
from fractions import Fraction
from typing import Any, Literal, NamedTuple, Optional, SupportsIndex, Union

import numpy as np
import pandas as pd

from .errors import LimitFault, ProgramFailed, ProgramTooOld, RequestError
from .network import Network, field_names, flat_models
from .pictures import Picture, titled
from .program import BUILD, Process, answer, find, outcome
from .tables import read_table

__all__ = ["Item", "Record", "Run", "Stats", "simulate"]

_Frame = Any  # pandas.DataFrame: Debian 12 has no stubs of pandas


class Item(NamedTuple):
    """A value on a port.

    >>> Item(0, 5).value
    5
    """

    port: int
    value: int


class Record(NamedTuple):
    """A step of a component: at which time, what it was, with what, and what state it left.

    `kind` is `"out"` (an output, whose `items` were sent), `"int"`, `"ext"` or `"con"` (a transition,
    whose `items` came). `words` tell the state after a transition; an output has none. The time is
    `tick` and `microstep`.

    >>> Record(2, 0, "t", "ext", (Item(0, 5),), (1, 5, 5)).items[0].value
    5
    """

    tick: int
    microstep: int
    component: str
    kind: str
    items: tuple[Item, ...]
    words: tuple[int, ...]


class Stats:
    """What each component of a run did, and what its figures came to (docs/FORMATS.md, "Counts and figures").

    `until` is the end tick, `records` how many records there are, `microsteps` how many microsteps a tick
    had at the most; `fault` is the fault that ended the run, or None. `raw` is the program's answer as
    it was read: a dict.

    >>> from twarp import Network, simulate
    >>> network = Network().add("g", "gen", period=2, value=5).add("t", "tally").couple("g", "t")
    >>> stats = simulate(network, until=5).stats()
    >>> stats.records, stats.figures.loc[("t", "sum"), "mean_exact"]
    (6, Fraction(4, 1))
    """

    def __init__(self, raw: Mapping[str, Any]) -> None:
        self.raw = raw
        self.until: int = raw["until"]
        self.records: int = raw["records"]
        self.microsteps: int = raw["microsteps"]
        met = raw.get("fault")
        self.fault: Optional[LimitFault] = None
        if met is not None:
            self.fault = LimitFault(met["component"], met["tick"], met["microstep"], met["limit"])
        self._components: _Frame = None
        self._figures: _Frame = None
        self._observations: _Frame = None

    @property
    def components(self) -> pd.DataFrame:
        """A row for each component, by its name: its model; how many `outputs` it made and how many items
        it `sent` with them; how many items it `received`; and its transitions, `int`, `ext` and `con`.

        >>> from twarp import Network, simulate
        >>> stats = simulate(Network().add("g", "gen", period=2, value=5), until=5).stats()
        >>> stats.components.loc["g", "outputs"]
        2
        """
        if self._components is None:
            of = self.raw["components"]
            columns = {key: _column([component[key] for component in of], kind) for key, kind in _COUNTS.items()}
            names = pd.Index([component["name"] for component in of], name="component", dtype=object)
            self._components = pd.DataFrame(columns, index=names)
        return self._components

    @property
    def figures(self) -> pd.DataFrame:
        """A row for each figure, by component and figure: its `least`, `greatest` and `last` value, its
        `mean` over the ticks, and `busy`, the share of the ticks in which it was not 0.

        `mean` and `busy` are the nearest floating-point numbers; `mean_exact` and `busy_exact` are exact,
        as `fractions.Fraction`.

        >>> from twarp import Network, simulate
        >>> stats = simulate(Network().add("g", "gen", period=2, value=5), until=5).stats()
        >>> stats.figures.loc[("g", "count"), ["mean", "busy"]].tolist()
        [0.8, 0.6]
        """
        if self._figures is None:
            of = [(component["name"], figure) for component in self.raw["components"] for figure in component["figures"]]
            columns = {key: [figure[key] for _, figure in of] for key in ("least", "greatest", "last")}
            columns["mean_exact"] = [exact(figure)[0] for _, figure in of]
            columns["busy_exact"] = [exact(figure)[1] for _, figure in of]
            columns["mean"] = [float(mean) for mean in columns["mean_exact"]]
            columns["busy"] = [float(busy) for busy in columns["busy_exact"]]
            names = [[name for name, _ in of], [figure["name"] for _, figure in of]]
            index = pd.MultiIndex.from_arrays(names, names=["component", "figure"])
            typed = {key: _column(columns[key], kind) for key, kind in _FIGURES.items()}
            self._figures = pd.DataFrame(typed, index=index)
        return self._figures

    @property
    def observations(self) -> pd.DataFrame:
        """A row for each observation, by component and observation: its `count` and `sum`, and the `mean`
        and standard deviation `sd` of what was observed, with three decimals; NaN where there is none.

        >>> from twarp import Network, simulate
        >>> stats = simulate(Network().add("g", "gen", period=2, value=5), until=5).stats()
        >>> len(stats.observations)
        0
        """
        if self._observations is None:
            of = [(component["name"], seen) for component in self.raw["components"] for seen in component["observations"]]
            names = [[name for name, _ in of], [seen["name"] for _, seen in of]]
            index = pd.MultiIndex.from_arrays(names, names=["component", "observation"])
            typed = {key: _column([seen[key] for _, seen in of], "int64") for key in ("count", "sum")}
            for key in ("mean", "sd"):
                typed[key] = _column([np.nan if seen[key] is None else seen[key] for _, seen in of], "float64")
            self._observations = pd.DataFrame(typed, index=index)
        return self._observations

    def __repr__(self) -> str:
        return f"Stats({self._told()})"

    def _repr_html_(self) -> str:
        """What a notebook shows: both frames, without the exact columns."""
        figures = self.figures.drop(columns=["mean_exact", "busy_exact"])
        shown = [frame.to_html(max_rows=60) for frame in (self.components, figures)]
        return "\n".join([f"<p>{html.escape(self._told())}</p>", *shown])

    def _told(self) -> str:
        met = f", fault={self.fault}" if self.fault else ""
        return f"until={self.until}, records={self.records}, microsteps={self.microsteps}{met}"


_COUNTS = {"model": "object", **{key: "int64" for key in ("outputs", "sent", "received", "int", "ext", "con")}}
_FIGURES = {
    "least": "int64",
    "greatest": "int64",
    "last": "int64",
    "mean": "float64",
    "busy": "float64",
    "mean_exact": "object",
    "busy_exact": "object",
}


def _column(values: list[Any], kind: str) -> np.ndarray[Any, Any]:
    column = np.empty(len(values), dtype=kind)
    column[:] = values
    return column


def exact(figure: Mapping[str, Any]) -> tuple[Fraction, Fraction]:
    """The exact mean and the exact share of a figure as `stats --json` tells it.

    Raises `ProgramTooOld` where the program tells three decimals alone.

    >>> exact({"last": 2, "mean_of": [4, 5], "busy_of": [3, 5]})
    (Fraction(4, 5), Fraction(3, 5))
    """
    if "mean_of" not in figure or "busy_of" not in figure:
        raise ProgramTooOld(f"{find()} is too old: its stats tell no exact means (mean_of, busy_of): {BUILD}")
    total, time = figure["mean_of"]
    busy, _ = figure["busy_of"]
    if time == 0:
        return Fraction(figure["last"]), Fraction(int(figure["last"] != 0))
    return Fraction(total, time), Fraction(busy, time)


def simulate(
    network: Network,
    until: SupportsIndex,
    workers: Union[None, SupportsIndex, Literal["auto"]] = None,
    *,
    on_fault: Literal["raise", "keep"] = "raise",
    numbers: Optional[Mapping[str, SupportsIndex]] = None,
    replication: SupportsIndex = 0,
) -> Run:
    """A run of a network as it is now, up to the tick `until`: only steps before it are made.

    Nothing is computed before it is asked for. `until` is 0 to 1,099,511,627,774. With `workers` (1 to
    64, or `"auto"`) it is a run of Time Warp with so many threads: records, figures and tables are the
    same. Pictures are of the sequential run.

    A run in which a component meets a limit ends there: where `on_fault` is `"raise"`, what is asked of
    it raises `LimitFault`, whose `partial` is what there is up to the fault; where it is `"keep"`, that
    is what one gets, and the run's `fault` tells of the fault.

    `numbers` are other numbers for parameters, each by the component's flat name, a dot and the parameter
    (`{"desk.agents": 4}`); `replication` from 1 on gives every seed its number of that replication. All
    that is asked of the run is then as of a network with these.

    Raises `TypeError` or `ValueError` for arguments of another kind. What is asked of the run raises
    `NetworkError` for a network that the program refuses, `RequestError` for an end tick or a number of
    workers out of range and for a parameter that there is not (23), `MemoryRefused`, and the kinds of
    `ProgramError`.

    >>> from twarp import Network
    >>> network = Network().add("g", "gen", period=2, value=5).add("t", "tally").couple("g", "t")
    >>> run = simulate(network, until=5)
    >>> run.table()[["tick", "component", "kind"]].values.tolist()[:3]
    [[2, 'g', 'out'], [2, 'g', 'int'], [2, 't', 'ext']]
    >>> simulate(network, until=5, numbers={"g.value": 7}).stats().figures.loc[("t", "sum"), "last"]
    14
    """
    if not isinstance(network, Network):
        raise TypeError(f"what is simulated is a Network, not {network!r}")
    if on_fault not in ("raise", "keep"):
        raise ValueError(f'on_fault is "raise" or "keep", not {on_fault!r}')
    count = None if workers is None else "auto" if workers == "auto" else str(_whole(workers, "workers"))
    return Run(
        network.to_json().encode("ascii"),
        flat_models(network),
        _whole(until, "until"),
        count,
        on_fault == "keep",
        _settings(numbers or {}, _whole(replication, "replication")),
        field_names(network),
    )


class Run:
    """A run of a network; `simulate` makes it. It can be pickled, and then carries the network.

    >>> from twarp import Network, simulate
    >>> simulate(Network().add("g", "gen", period=2, value=5), until=5)
    Run(1 components, until=5)
    """

    def __init__(
        self,
        network: bytes,
        models: Sequence[tuple[str, str, bool]],
        until: int,
        workers: Optional[str],
        keep: bool,
        settings: Sequence[str] = (),
        fields: Sequence[str] = (),
    ) -> None:
        self.until = until
        self._fields = list(fields)
        self._settings = list(settings)
        self._network = network
        self._models = models
        self._workers = workers
        self._keep = keep
        self._stats: Optional[Stats] = None
        self._fault: Optional[LimitFault] = None
        self._known = False

    @property
    def fault(self) -> Optional[LimitFault]:
        """The fault that ends the run before its end, or None where it meets no limit. Where nothing has
        been asked of the run yet, it is simulated for this.

        >>> from twarp import Network, simulate
        >>> relays = Network(3).add("a", "relay", delay=0).add("b", "relay", delay=0)
        >>> relays = relays.couple("a", "b").couple("b", "a").input(3, "a", 1)
        >>> run = simulate(relays, until=5, on_fault="keep")
        >>> len(run.table()), run.fault
        (8, LimitFault('b', 3, 3, 'microstep'))
        """
        if not self._known:
            self._figured()
        return self._fault

    def stats(self, start: Optional[int] = None, only: Union[None, str, Sequence[str]] = None) -> Stats:
        """Counts, figures and observations; see `Stats`. Those of the whole run are kept: asked again, nothing is simulated.

        With `start` they are of the time from that tick on, without a warm-up: records before it do not
        count, and a figure comes to it with the value that they left. `only` are the names of the
        components that are shown.

        Raises `LimitFault` (with the figures up to it as `partial`), `TypeError` where `start` is no whole
        number, `RequestError` where it is no tick (23) or a name is none (15), and what `simulate` says.

        >>> from twarp import Network, simulate
        >>> run = simulate(Network().add("g", "gen", period=2, value=5), until=5)
        >>> run.stats()
        Stats(until=5, records=4, microsteps=1)
        >>> run.stats(start=3).figures.loc[("g", "count"), "mean"]
        1.5
        """
        if start is None and only is None:
            stats = self._figured()
        else:
            since = None if start is None else _whole(start, "start")
            stats = Stats(_figures(self._network, self.until, since, only, self._made()))
            self._learn(stats.fault)
        self._met(stats.fault, stats)
        return stats

    def table(self, start: Optional[int] = None, only: Union[None, str, Sequence[str]] = None) -> pd.DataFrame:
        """A row for each record: `tick`, `microstep`, `component`, `kind` (both categories), `items`
        (`port=value`) and `words`, as texts with blanks between.

        With `start` these are the records at that tick and later, with `only` those of the components of
        these names; so also of `items` and `words`.

        It is read as the program writes. Raises `TypeError` where `start` is no whole number, `RequestError`
        where it is no tick (23) or a name is none (15), `LimitFault` (with the rows up to it as `partial`), and
        what `simulate` says.

        >>> from twarp import Network, simulate
        >>> simulate(Network().add("g", "gen", period=2, value=5), until=3).table().words.tolist()
        ['', '1']
        """
        return self._table(_shown(start, only), {"items": "str", "words": "str"})

    def items(self, start: Optional[int] = None, only: Union[None, str, Sequence[str]] = None) -> pd.DataFrame:
        """A row for each item of a record: `tick`, `microstep`, `component`, `kind` (both categories),
        `port` and `value`, and a column for each field of the network by its name (`tick.1` of a field that
        is called as a column before it). Of a kind `out` it was sent, of another it came. `start` and `only`
        are as of `table`.

        It is read as the program writes. Raises `LimitFault` (with the rows up to it as `partial`), and
        what `simulate` says.

        >>> from twarp import Network, simulate
        >>> simulate(Network().add("g", "gen", period=2, value=5), until=5).items().value.sum()
        10
        """
        columns = {"port": "int64", "value": "int64"}
        columns.update({f"{name}.1" if name in _FIRST else name: "int64" for name in self._fields})
        return self._table(["--items", *_shown(start, only)], columns)

    def words(self, start: Optional[int] = None, only: Union[None, str, Sequence[str]] = None) -> pd.DataFrame:
        """A row for each word of a state after a transition: `tick`, `microstep`, `component`, `kind`
        (both categories), `place` from 0, and `number`. `start` and `only` are as of `table`.

        Numbers are int64. The words of a hop are below 2^64: of a network of hops and gens alone they are
        uint64; where hops stand among other models, they are Python's numbers.

        It is read as the program writes. Raises `LimitFault` (with the rows up to it as `partial`), and
        what `simulate` says.

        >>> from twarp import Network, simulate
        >>> simulate(Network().add("g", "gen", period=2, value=5), until=5).words().number.tolist()
        [1, 2]
        """
        return self._table(["--words", *_shown(start, only)], {"place": "int64", "number": self._number()})

    def changes(self, start: Optional[int] = None, only: Union[None, str, Sequence[str]] = None) -> pd.DataFrame:
        """A row for each change of a figure: `tick`, `microstep`, `component`, `figure` (both categories)
        and `value`. It begins with all figures at tick 0, or at `start` with the values that were left to
        it. `start` and `only` are as of `table`, the types of values those of `words`.

        It is read as the program writes. Raises `LimitFault` (with the rows up to it as `partial`), and
        what `table` says.

        >>> from twarp import Network, simulate
        >>> network = Network().add("q", "queue", service=3).input(1, "q", 7)
        >>> simulate(network, until=9).changes()[["tick", "figure", "value"]].values.tolist()
        [[0, 'dropped', 0], [0, 'jobs', 0], [1, 'jobs', 1], [4, 'jobs', 0]]
        """
        return self._table(["--figures", *_shown(start, only)], {"value": self._number()}, "figure")

    def _number(self) -> str:
        """The type of the words of states: those of a hop are below 2^64."""
        models = {model for _, model, _ in self._models}
        return "int64" if "hop" not in models else "uint64" if models <= {"hop", "gen"} else "object"

    def course(self, component: str, figure: str) -> pd.Series:
        """The course of a figure: its value after each tick in which the component made a transition, over
        ticks, for a step plot (`course.plot(drawstyle="steps-post")`).

        It begins at tick 0 with the value at the start and ends at the end tick (of a run that meets a
        limit, at the fault's tick) with the last value. `component` is a flat name, `figure` the name
        that `stats` has.

        Raises `RequestError` (15 NoSuch) for a component or a figure that is none, `LimitFault` (with
        the course up to it as `partial`), and what `simulate` says.

        >>> from twarp import Network, simulate
        >>> network = Network().add("q", "queue", service=3).input(1, "q", 7).input(2, "q", 8)
        >>> simulate(network, until=9).course("q", "jobs").to_dict()
        {0: 0, 1: 1, 2: 2, 4: 1, 7: 0, 9: 0}
        """
        ticks, values = [0], [self._start(component, figure)]
        changes = self._changes(component, figure)

        def take(chunk: _Frame) -> None:
            own = chunk[(chunk["component"] == component) & (chunk["kind"] != "out")]
            for tick in own["tick"].drop_duplicates().tolist():
                ticks.append(tick)
                values.append(changes.get(tick, values[-1]))

        fault = self._read([*_only(component)], {"items": "str", "words": "str"}, take, _ROWS)
        ticks.append(fault.tick if fault else self.until)
        values.append(values[-1])
        index = pd.Index(ticks, name="tick", dtype="int64")
        course = pd.Series(values, index=index, name=figure, dtype="int64")
        course = course[~course.index.duplicated(keep="last")]
        self._met(fault, course)
        return course

    def trace(self) -> Generator[Record, None, None]:
        """The records one after another, as `Record`; after the last one `LimitFault` is raised where
        the run met a limit. An iterator that is dropped, or closed, ends the program.

        Raises what `simulate` says, at its first record or later.

        >>> from twarp import Network, simulate
        >>> next(simulate(Network().add("g", "gen", period=2, value=5), until=5).trace())
        Record(tick=2, microstep=0, component='g', kind='out', items=(Item(port=0, value=5),), words=())
        """
        words = ["seq"] if self._workers is None else ["run", "--workers", self._workers]
        words = [*words, "/dev/stdin", "--until", str(self.until), *self._settings]
        last = ""
        with Process(words, self._network) as process:
            for line in process.out:
                last = line.decode("ascii", "replace")
                if not last.endswith("\n") or last.startswith("fault: "):
                    break
                yield _record(last)
            status, said = process.end()
        self._met(outcome(status, last + said, words, self._network), None)

    def picture(
        self,
        only: Union[None, str, Sequence[str]] = None,
        start: Optional[SupportsIndex] = None,
        figure: Optional[str] = None,
        title: str = "network",
    ) -> Picture:
        """A picture of the run, a lane for each component, which a notebook shows (docs/PICTURES.md).

        `only` are the names of the components that are shown, `start` the tick from which on the run is
        seen, `figure` the one whose course is drawn, `title` what stands above it. A limit that the run
        meets is marked in it, and is not raised.

        Raises `RequestError` for a name that is none (15) or a tick out of range (23), and what
        `simulate` says.

        >>> from twarp import Network, simulate
        >>> str(simulate(Network().add("g", "gen", period=2, value=5), until=5).picture())[:4]
        '<svg'
        """
        words = ["draw", "/dev/stdin", "--until", str(self.until), *self._settings]
        words += _only(only)
        if start is not None:
            words += ["--from", str(_whole(start, "start"))]
        if figure is not None:
            words += [f"--figure={figure}"]
        given = answer(words, self._network)
        self._learn(given.fault)
        return titled(given.out, title)

    def __repr__(self) -> str:
        return f"Run({len(self._models)} components, until={self.until})"

    def _learn(self, fault: Optional[LimitFault]) -> None:
        self._fault, self._known = fault, True

    def _met(self, fault: Optional[LimitFault], partial: Any) -> None:
        """Keeps the fault that a run met, if any, and raises it where that is wanted."""
        self._learn(fault)
        if fault is not None and not self._keep:
            raised = LimitFault(fault.component, fault.tick, fault.microstep, fault.limit)
            raised.partial = partial
            raise raised

    def _made(self) -> list[str]:
        """The options of `stats` and `table` that say which network it is, and who makes the run."""
        return [*self._settings, *([] if self._workers is None else [f"--workers={self._workers}"])]

    def _figured(self) -> Stats:
        if self._stats is None:
            self._stats = Stats(_figures(self._network, self.until, settings=self._made()))
        self._learn(self._stats.fault)
        return self._stats

    def _start(self, component: str, figure: str) -> int:
        """The value of a figure at the start."""
        raw = _figures(self._network, 0, settings=self._settings)
        for at, (name, _, _) in enumerate(self._models):
            if name != component:
                continue
            figures = raw["components"][at]["figures"]
            for of in figures:
                if of["name"] == figure:
                    return int(of["last"])
            there = ", ".join(of["name"] for of in figures) or "none"
            raise RequestError(15, "NoSuch", f"figure {figure!r} of {component!r}; there are {there}")
        raise RequestError(15, "NoSuch", f"component {component!r}")

    def _changes(self, component: str, figure: str) -> dict[int, int]:
        """The value of a figure after each tick in which it changed."""
        changes: dict[int, int] = {}

        def take(chunk: _Frame) -> None:
            own = chunk[chunk["figure"] == figure]
            changes.update(zip(own["tick"].tolist(), own["value"].tolist()))

        self._read(["--figures", *_only(component)], {"value": self._number()}, take, _ROWS, "figure")
        return changes

    def _table(self, flags: list[str], last: dict[str, str], fourth: Literal["kind", "figure"] = "kind") -> _Frame:
        frames: list[_Frame] = []
        fault = self._read(flags, last, frames.append, fourth=fourth)
        self._met(fault, frames[0])
        return frames[0]

    def _read(
        self,
        flags: list[str],
        last: dict[str, str],
        take: Any,
        rows: Optional[int] = None,
        fourth: Literal["kind", "figure"] = "kind",
    ) -> Optional[LimitFault]:
        words = ["table", "/dev/stdin", "--until", str(self.until), *self._made(), *flags]
        names = [name for name, _, _ in self._models]
        return read_table(words, self._network, names, last, take, rows, fourth)


# How many rows of a table are looked at together where not all are kept.
_ROWS = 200_000

# The columns of each table that a field can be named after; pandas counts names that stand twice.
_FIRST = ("tick", "microstep", "component", "kind")


def _only(names: Union[None, str, Sequence[str]]) -> list[str]:
    """The option that shows these components alone."""
    return [] if names is None else [f"--only={names if isinstance(names, str) else ','.join(names)}"]


def _shown(start: Optional[int], only: Union[None, str, Sequence[str]]) -> list[str]:
    """The options that show what is from a tick on, and of these components."""
    return [*([] if start is None else [f"--from={_whole(start, 'start')}"]), *_only(only)]


def _settings(numbers: Mapping[str, SupportsIndex], replication: int) -> list[str]:
    """The options that give a network other numbers."""
    seeds = [] if replication == 0 else [f"--seed-all={replication}"]
    return [*(f"--set={name}={_whole(number, name)}" for name, number in numbers.items()), *seeds]


def _figures(
    network: bytes,
    until: int,
    start: Optional[int] = None,
    only: Union[None, str, Sequence[str]] = None,
    settings: Sequence[str] = (),
) -> Any:
    """The answer of `stats --json`."""
    given = answer(["stats", "/dev/stdin", "--until", str(until), *settings, *_shown(start, only), "--json"], network)
    try:
        raw = json.loads(given.out)
        return raw if isinstance(raw, dict) and raw.keys() >= {"until", "records", "components"} else _refuse(given.out)
    except ValueError:
        return _refuse(given.out)


def _refuse(out: bytes) -> Any:
    raise ProgramFailed(None, f"stats wrote {out[:80]!r}")


def _whole(value: Any, what: str) -> int:
    if isinstance(value, bool) or not hasattr(value, "__index__"):
        raise TypeError(f"{what} is {value!r}, which is no whole number")
    return int(value.__index__())


_BAG = re.compile(r"(\d+)=(-?\d+)")


def _record(line: str) -> Record:
    """The record of a line of a trace."""
    try:
        time, component, kind, rest = line.split(" ", 3)
        tick, _, microstep = time.partition(".")
        bag, _, words = rest.partition("|")
        items = tuple(Item(int(port), int(value)) for port, value in _BAG.findall(bag))
        return Record(int(tick), int(microstep), component, kind, items, tuple(map(int, words.split())))
    except ValueError as error:
        raise ProgramFailed(None, f"a trace has the line {line!r}") from error
