"""Replications, confidence intervals, sweeps and comparisons, on one machine or on many.

>>> from twarp import Network
>>> from twarp.distributions import exponential
>>> from twarp.library import server, source
>>> def make(seeds):
...     network = Network().add("arrivals", source(exponential(500), seed=seeds["arrivals"]))
...     network.add("desk", server(exponential(400), seed=seeds["desk"]))
...     return network.couple("arrivals", "desk")
>>> frame = replicate(make, 5, until=200_000, warmup=20_000, seed=1, progress=False)
>>> int(summary(frame).loc[("desk", "waiting"), "n"])
5

A replication is a run of its own with random numbers of its own.  What is counted here is replications, never
ticks or customers of one run: those depend on one another, and intervals from them would be too narrow.
"""

from __future__ import annotations

import contextlib
import importlib
import itertools
import json
import math
import operator
import os
import sys
import threading
import warnings
from collections.abc import Generator, Iterable, Iterator, Mapping, Sequence
from concurrent.futures import FIRST_COMPLETED, Future, ThreadPoolExecutor, wait
from typing import Any, Callable, List, NamedTuple, Optional, Tuple, Union

import numpy as np
import pandas as pd
from scipy import stats as _stats

from .errors import ProgramTooOld
from .network import Network
from .program import Process, outcome

__all__ = [
    "NotPrecise",
    "SameSeed",
    "Seeds",
    "compare",
    "processors",
    "ratio",
    "replicate",
    "summary",
    "sweep",
    "until_precise",
]

#: Columns of a frame that are measured; all others but `replication` say of what.
MEASURED = ("mean", "busy", "last", "gain", "least", "greatest")


class NotPrecise(UserWarning):
    """`until_precise` made as many replications as it may, and the intervals are still too wide.

    >>> issubclass(NotPrecise, UserWarning)
    True
    """


class SameSeed(UserWarning):
    """A component has the same seed in two replications: they are not independent, and intervals too narrow.

    It is no mistake where the component draws nothing, as a server of constant service.

    >>> issubclass(SameSeed, UserWarning)
    True
    """


class Seeds:
    """The seeds of one replication: whole numbers from 0 to 2^63 - 1 for `random` of machines.

    `seeds["desk"]` is the seed for that name, `seeds[0]` that of that number, and iterating gives those of 0,
    1, 2 and on.  Each comes from ``numpy.random.SeedSequence`` with the experiment's seed as entropy, and the
    replication and the name as key: seeds of other names, other replications and other experiments' seeds are
    independent, and the same ones give the same number in every process and on every machine.

    A seed by name stays the same where other components come and go, so that two designs meet the same
    arrivals: use names where designs are compared.

    A machine's random numbers are a stretch of one cycle of 2^64, from a place that its seed gives.  Two
    stretches of a million draws overlap with a probability of 10^-13; among ten thousand components (of all
    replications together) some two do with one of 10^-5.

    >>> seeds = Seeds(seed=1, replication=0)
    >>> seeds["desk"] == Seeds(1, 0)["desk"], seeds["desk"] == Seeds(1, 1)["desk"]
    (True, False)
    >>> [name for name, seed in zip("ab", seeds)]
    ['a', 'b']
    """

    __slots__ = ("replication", "seed")

    def __init__(self, seed: int, replication: int) -> None:
        self.seed = _whole("seed", seed, 0)
        self.replication = _whole("replication", replication, 0)

    def __getitem__(self, name: Union[str, int]) -> int:
        if isinstance(name, str):
            key = [1, *name.encode()]
        else:
            key = [0, _whole("the number of a seed", name, 0)]
        sequence = np.random.SeedSequence(self.seed, spawn_key=(self.replication, *key))
        return int(sequence.generate_state(1, np.uint64)[0]) >> 1

    def __iter__(self) -> Iterator[int]:
        return (self[number] for number in itertools.count())

    def __repr__(self) -> str:
        return f"Seeds(seed={self.seed}, replication={self.replication})"


#: Gives the network of a replication.
Make = Callable[[Seeds], Network]


class _Row(NamedTuple):
    """What a replication tells of one figure."""

    component: str
    figure: str
    mean: float
    busy: float
    last: int
    gain: int
    least: Optional[int]
    greatest: Optional[int]


#: Runs that have ended, each with its place among all.
_Ended = Generator[Tuple[int, List[_Row]], None, None]


class _Task(NamedTuple):
    """A run to make: its place among all, and its network's text."""

    place: int
    network: bytes


def _whole(name: str, value: Any, least: int) -> int:
    if isinstance(value, bool) or not hasattr(value, "__index__"):
        raise TypeError(f"{name} is a whole number, not {value!r}")
    number = operator.index(value)
    if number < least:
        raise ValueError(f"{name} is {least} or more, not {number}")
    return number


def processors() -> int:
    """How many processors this process may use: so many programs run at once on this machine.

    >>> processors() >= 1
    True
    """
    if hasattr(os, "sched_getaffinity"):
        return max(1, len(os.sched_getaffinity(0)))
    return os.cpu_count() or 1


# One run.


class _Running:
    """The programs that run now, so that all of them can be ended at once."""

    def __init__(self) -> None:
        self._lock = threading.Lock()
        self._running: set[Process] = set()
        self._stopped = False

    def enter(self, process: Process) -> None:
        with self._lock:
            self._running.add(process)
            if self._stopped:
                _kill(process)

    def leave(self, process: Process) -> None:
        with self._lock:
            self._running.discard(process)

    def stop(self) -> None:
        with self._lock:
            self._stopped = True
            for process in self._running:
                _kill(process)


def _kill(process: Process) -> None:
    """Ends a program at once; the thread that reads from it sees the end of what it says."""
    process._popen.kill()


def _figures(network: bytes, until: int, running: Optional[_Running]) -> list[tuple[str, dict[str, Any]]]:
    """The figures of a run until a tick, each with its component's name, as the program tells them."""
    words = ["stats", "/dev/stdin", "--until", str(until), "--json"]
    with Process(words, network) as process:
        if running is not None:
            running.enter(process)
        try:
            told = process.out.read()
            status, said = process.end()
        finally:
            if running is not None:
                running.leave(process)
    fault = outcome(status, said, words, network)
    if fault is not None:
        raise fault
    found = []
    for component in json.loads(told)["components"]:
        for figure in component["figures"]:
            if "mean_of" not in figure:
                raise ProgramTooOld("the program does not tell exact sums (`mean_of` in stats --json): build a newer one")
            found.append((component["name"], figure))
    return found


def _measure(network: bytes, until: int, warmup: int, running: Optional[_Running] = None) -> list[_Row]:
    """One replication: what each figure was from tick `warmup` to `until`.

    The sums until the end less those until `warmup` are exact whole numbers, so nothing is lost by the
    difference.
    """
    end = _figures(network, until, running)
    start = _figures(network, warmup, running) if warmup else end
    rows = []
    for (component, figure), (_, before) in zip(end, start):
        total, ticks = figure["mean_of"]
        busy = figure["busy_of"][0]
        gain = figure["last"]
        least: Optional[int] = figure["least"]
        greatest: Optional[int] = figure["greatest"]
        if warmup:
            total -= before["mean_of"][0]
            ticks -= before["mean_of"][1]
            busy -= before["busy_of"][0]
            gain -= before["last"]
            least = greatest = None
        rows.append(_Row(component, figure["name"], total / ticks, busy / ticks, figure["last"], gain, least, greatest))
    return rows


# Many runs.


class _Bar:
    """A progress bar of tqdm where it is there and somebody sees it, else nothing."""

    def __init__(self, progress: bool) -> None:
        self._bar: Any = None
        if progress:
            try:
                from tqdm.auto import tqdm
            except ImportError:
                return
            # (stubs of tqdm, where they are installed, know no None here)
            bar: Any = tqdm
            self._bar = bar(total=0, disable=None, unit="run")

    def expect(self, runs: int) -> None:
        """So many more runs are to be made."""
        if self._bar is not None:
            self._bar.total += runs
            self._bar.refresh()

    def advance(self) -> None:
        """One more run has ended."""
        if self._bar is not None:
            self._bar.update()

    def __enter__(self) -> _Bar:
        return self

    def __exit__(self, *_: object) -> None:
        if self._bar is not None:
            self._bar.close()


def _make_all(
    tasks: Iterable[_Task], total: int, until: int, warmup: int, client: Any, bar: _Bar
) -> list[list[_Row]]:
    """Makes all runs, here or by a client of Dask, and gives what they tell in the order of their places."""
    bar.expect(total)
    done: dict[int, list[_Row]] = {}
    ended = _here(tasks, until, warmup) if client is None else _there(tasks, until, warmup, client)
    with contextlib.closing(ended):  # however this is left, no program and no task goes on
        for place, rows in ended:
            done[place] = rows
            bar.advance()
    return [done[place] for place in range(total)]


def _here(tasks: Iterable[_Task], until: int, warmup: int) -> _Ended:
    """Makes runs on this machine, as many at once as it has processors; each in a thread that waits for it."""
    many = processors()
    running = _Running()
    waiting: dict[Future[list[_Row]], int] = {}
    pool = ThreadPoolExecutor(many, thread_name_prefix="twarp")
    try:
        for task in tasks:
            waiting[pool.submit(_measure, task.network, until, warmup, running)] = task.place
            if len(waiting) >= 2 * many:
                yield from _first(waiting)
        while waiting:
            yield from _first(waiting)
    finally:
        for future in waiting:
            future.cancel()
        running.stop()
        pool.shutdown()


def _first(waiting: dict[Future[list[_Row]], int]) -> Iterator[tuple[int, list[_Row]]]:
    ended, _ = wait(waiting, return_when=FIRST_COMPLETED)
    for future in ended:
        place = waiting.pop(future)
        yield place, future.result()


def _there(tasks: Iterable[_Task], until: int, warmup: int, client: Any) -> _Ended:
    """Makes runs by a client of Dask: each is a task that carries its network.

    So many are handed in that every thread has some to do, and one more for each that ends: the scheduler
    never holds all networks at once.  A task whose worker is gone is made again by Dask.
    """
    dask: Any = importlib.import_module("distributed")
    ahead = max(64, 4 * sum(client.nthreads().values()))
    places: dict[Any, int] = {}
    left = iter(tasks)

    def submit(task: _Task) -> Any:
        future = client.submit(_measure, task.network, until, warmup, pure=False)
        places[future] = task.place
        return future

    ended = dask.as_completed([submit(task) for task in itertools.islice(left, ahead)], with_results=True)
    try:
        for future, rows in ended:
            place = places.pop(future)
            for task in itertools.islice(left, 1):
                ended.add(submit(task))
            yield place, [_Row(*row) for row in rows]
    finally:
        if places:
            client.cancel(list(places))


def _tasks(makes: Iterable[tuple[Callable[[Seeds], Any], Seeds]]) -> Iterator[_Task]:
    """The networks of runs, each made when it is asked for; the first two replications must differ in seeds."""
    first = b""
    for place, (make, seeds) in enumerate(makes):
        network = make(seeds)
        if not isinstance(network, Network):
            raise TypeError(f"make gives a Network, not {network!r}")
        text = network.to_json().encode("ascii")
        if place == 0 and seeds.replication == 0:
            first = text
        elif place == 1 and first:
            _warn_of_same_seeds(first, text)
        yield _Task(place, text)


def _warn_of_same_seeds(first: bytes, second: bytes) -> None:
    """Warns of components that begin their random numbers alike in two replications."""
    same = sorted(set(_starts(first)) & set(_starts(second)))
    if same:
        names = ", ".join(name for name, _ in same)
        told = f"the same seed in every replication, so they are not independent: {names}; take it from `seeds`"
        warnings.warn(told, SameSeed, stacklevel=_outside())


def _starts(network: bytes) -> Iterator[tuple[str, int]]:
    """The components of a network that have random numbers, by their flat names, and where these start."""
    file = json.loads(network)
    machines = {machine["name"]: machine.get("random") for machine in file.get("models", [])}
    machines["hop"] = "seed"
    parts = [("", component) for component in file["components"]]
    while parts:
        way, component = parts.pop()
        name = way + component["name"]
        if "components" in component:
            parts.extend((f"{name}.", part) for part in component["components"])
        elif isinstance(component.get(machines.get(component["model"])), int):
            yield name, component[machines[component["model"]]]


def _outside() -> int:
    """How many frames above its caller the caller of this package stands, as `warnings.warn` counts them."""
    frame, count = sys._getframe(1), 1
    while frame.f_back is not None and frame.f_globals.get("__name__") == __name__:
        frame, count = frame.f_back, count + 1
    return count


def _numbers(values: list[Any]) -> Any:
    """A column of whole numbers: of 64 bits with sign where they fit, else of Python's own."""
    try:
        return np.array(values, dtype=np.int64)
    except OverflowError:
        return np.array(values, dtype=object)


def _frame(heads: Sequence[tuple[Mapping[str, Any], int]], told: Sequence[list[_Row]], seed: int) -> pd.DataFrame:
    """The frame of all runs: of each its head (the point of a grid, the replication), then its rows."""
    # Names are shared, so that equal frames are equal to the byte when they are pickled too.
    flat = [row._replace(component=sys.intern(row.component), figure=sys.intern(row.figure)) for rows in told for row in rows]
    columns: dict[str, Any] = {}
    for name in heads[0][0]:
        columns[name] = [point[name] for (point, _), rows in zip(heads, told) for _ in rows]
    columns["replication"] = _numbers([number for (_, number), rows in zip(heads, told) for _ in rows])
    columns["component"] = pd.Series([row.component for row in flat], dtype=object)
    columns["figure"] = pd.Series([row.figure for row in flat], dtype=object)
    columns["mean"] = np.array([row.mean for row in flat], dtype=float)
    columns["busy"] = np.array([row.busy for row in flat], dtype=float)
    columns["last"] = _numbers([row.last for row in flat])
    columns["gain"] = _numbers([row.gain for row in flat])
    for name in ("least", "greatest"):
        values = [getattr(row, name) for row in flat]
        try:
            columns[name] = pd.array(values, dtype="Int64")
        except (OverflowError, TypeError):
            columns[name] = pd.Series(values, dtype=object)
    frame = pd.DataFrame(columns)
    frame.attrs["seed"] = seed
    return frame


def _span(until: Any, warmup: Any) -> tuple[int, int]:
    end, start = _whole("until", until, 1), _whole("warmup", warmup, 0)
    if start >= end:
        raise ValueError(f"warmup is before until, not {start} and {end}")
    return end, start


def _replications(
    make: Make, numbers: range, until: int, warmup: int, seed: int, client: Any, bar: _Bar
) -> pd.DataFrame:
    makes = ((make, Seeds(seed, number)) for number in numbers)
    told = _make_all(_tasks(makes), len(numbers), until, warmup, client, bar)
    return _frame([({}, number) for number in numbers], told, seed)


def replicate(
    make: Make,
    n: int,
    until: int,
    warmup: int = 0,
    seed: int = 0,
    client: Any = None,
    progress: bool = True,
) -> pd.DataFrame:
    """Makes n replications and gives what their figures came to.

    - `make(seeds)` gives the `Network` of a replication: it takes its machines' seeds from `seeds`
      (`Seeds`), as in ``source(exponential(500), seed=seeds["arrivals"])``.  It is called in this process.
    - `until`: the end tick of each run.
    - `warmup`: figures are of the ticks from there on; what came before, while a system that was empty at the
      start filled, does not count.  The program is then asked twice, until `warmup` and until `until`.
    - `seed`: that of the whole experiment, a whole number from 0.  The same one gives the same frame.
    - `client`: a ``distributed.Client`` of Dask, whose workers make the runs; its workers need this package
      and the program.  Where it is left out as many programs run at once here as there are processors.  After
      an error or Ctrl-C no run begins any more, and programs here are ended; one that a worker runs goes on.
    - `progress`: a bar of tqdm where tqdm is there and standard error is a terminal.

    The frame has a row for each replication, component and figure, in this order, whichever way it was made
    and in whatever order runs ended: `replication` from 0, `component`, `figure`; `mean` over the ticks and
    `busy`, the share of ticks in which it was not 0; `last` value; `gain`, the last value less that at the
    warm-up (of a count, how often it was); `least` and `greatest` value, which are not known (``<NA>``) with a
    warm-up.

    Warns with `SameSeed` of components whose seed is the same in the first two replications.  Raises what
    `simulate` raises, by the first run that fails: `LimitFault`, `NetworkError` and others, and ends all
    programs; `ValueError` for a number out of range; `TypeError` where `make` gives no network.

    >>> from twarp import Network
    >>> frame = replicate(lambda seeds: Network().add("g", "gen", period=2, value=5), 2, until=5, progress=False)
    >>> print(frame.drop(columns=["least", "greatest"]).to_string(index=False))
     replication component figure  mean  busy  last  gain
               0         g  count   0.8   0.6     2     2
               1         g  count   0.8   0.6     2     2
    """
    end, start = _span(until, warmup)
    many = _whole("n", n, 1)
    base = _whole("seed", seed, 0)
    with _Bar(progress) as bar:
        return _replications(make, range(many), end, start, base, client, bar)


# Statistics.


def _of(frame: pd.DataFrame, value: str) -> list[str]:
    """The columns that say of what a row is; refuses a frame that has not what is asked."""
    for name in ("replication", value):
        if name not in frame.columns:
            raise ValueError(f"the frame has no column {name!r}: it is none of replicate, sweep or ratio")
    return [name for name in frame.columns if name != "replication" and name not in MEASURED]


def _confidence(confidence: float) -> float:
    if not 0 < confidence < 1:
        raise ValueError(f"confidence is between 0 and 1, not {confidence!r}")
    return float(confidence)


def _interval(values: np.ndarray[Any, Any], confidence: float) -> tuple[float, float, float]:
    """Mean, standard deviation and half width by Student's t of independent replications."""
    n = len(values)
    mean = float(np.mean(values))
    if n < 2:
        return mean, math.nan, math.nan
    if np.all(values == values[0]):
        return float(values[0]), 0.0, 0.0
    sd = float(np.std(values, ddof=1))
    return mean, sd, float(_stats.t.ppf((1 + confidence) / 2, n - 1)) * sd / math.sqrt(n)


def summary(frame: pd.DataFrame, confidence: float = 0.95, value: str = "mean") -> pd.DataFrame:
    """The mean over replications, and how far it may be off.

    For each component and figure (and point of a grid): `mean` of the column `value` over replications;
    `half_width` of the confidence interval, by the quantile of Student's t with n - 1 degrees of freedom;
    `sd`, the standard deviation of one replication (with n - 1); `n`, how many replications.  The interval is
    `mean` plus and minus `half_width`.  It supposes that the replications' values are about normal, which
    means over long runs are.  With one replication `sd` and `half_width` are NaN.

    With many rows at 0.95 one in twenty intervals misses by itself; for a statement on k rows together take
    a confidence of 1 - 0.05/k (Bonferroni).

    Raises `ValueError` for a frame of another kind and a confidence that is not between 0 and 1.

    >>> import pandas as pd
    >>> frame = pd.DataFrame({"replication": [0, 1, 2], "component": "desk", "figure": "waiting", "mean": [2.0, 3, 4]})
    >>> print(summary(frame).round(3))
                       mean  half_width   sd  n
    component figure                           
    desk      waiting   3.0       2.484  1.0  3
    """
    level = _confidence(confidence)
    keys = _of(frame, value)
    rows = []
    heads = []
    for head, group in frame.groupby(keys, sort=False, dropna=False):
        values = group[value].to_numpy(dtype=float, na_value=np.nan)
        mean, sd, half = _interval(values, level)
        heads.append(head if isinstance(head, tuple) else (head,))
        rows.append((mean, half, sd, len(values)))
    index = pd.MultiIndex.from_tuples(heads, names=keys)
    return pd.DataFrame(rows, columns=["mean", "half_width", "sd", "n"], index=index)


def ratio(
    frame: pd.DataFrame, component: str, top: str, bottom: str, value: str = "gain", name: Optional[str] = None
) -> pd.DataFrame:
    """The ratio of two figures of a component in each replication, as a frame that `summary` takes.

    ``ratio(frame, "desk", "waited", "starts")`` is the mean wait of a customer: the ticks that were waited by
    the number of those who waited them, both as `gain` (from the warm-up on).  In the new frame the figure is
    called `name`, or `waited / starts`, and `mean` is the ratio; NaN where it is 0/0.

    A ratio within a run is off by an amount that falls as runs become longer, not as they become more: make
    each run long (thousands of customers), and then as many runs as the interval needs.

    Raises `ValueError` where the frame has no such component or figure.

    >>> import pandas as pd
    >>> frame = pd.DataFrame({"replication": [0, 0], "component": "desk", "figure": ["waited", "starts"], "gain": [60, 4]})
    >>> ratio(frame, "desk", "waited", "starts")["mean"].tolist()
    [15.0]
    """
    keys = [key for key in _of(frame, value) if key not in ("component", "figure")]
    parts = []
    for figure in (top, bottom):
        rows = frame[(frame["component"] == component) & (frame["figure"] == figure)]
        if rows.empty:
            raise ValueError(f"the frame has no figure {figure!r} of a component {component!r}")
        parts.append(rows.set_index([*keys, "replication"])[value].astype(float))
    above, below = parts
    with np.errstate(divide="ignore", invalid="ignore"):
        quotient = above / below.reindex(above.index)
    made: pd.DataFrame = quotient.rename("mean").reset_index()
    made.insert(len(keys) + 1, "component", component)
    made.insert(len(keys) + 2, "figure", name if name is not None else f"{top} / {bottom}")
    made.attrs.update(frame.attrs)
    return made


#: What `until_precise` looks at: a figure of a component, several, or what gives a frame for `summary`.
Target = Union[tuple[str, str], Sequence[tuple[str, str]], Callable[[pd.DataFrame], pd.DataFrame]]


def until_precise(
    make: Make,
    of: Target,
    share: float,
    until: int,
    warmup: int = 0,
    seed: int = 0,
    confidence: float = 0.95,
    least: int = 20,
    most: int = 1_000,
    step: int = 10,
    client: Any = None,
    progress: bool = True,
) -> pd.DataFrame:
    """Makes replications until the half width of an interval is below a share of the mean.

    - `of`: a pair of a component and a figure, whose `mean` counts; a list of such pairs, all of which must
      be precise; or a function that gives a frame for `summary`, such as
      ``lambda frame: ratio(frame, "desk", "waited", "starts")``.
    - `share`: how far the half width may be of the size of the mean, say 0.05.
    - `least`, `most`: how many replications before it looks for the first time (2 or more), and at the most.
    - `step`: how many more between one look and the next.

    The others are those of `replicate`, and so is the frame, of all replications made.  How many there are
    depends on the numbers alone, not on the machine.  Where `most` were not enough there is a warning,
    `NotPrecise`, and the frame.

    **The rule has a bias.**  It stops when the spread looks small, so it stops too early more often than too
    late.  Measured with 40,000 experiments of normal replications whose standard deviation is half the mean,
    with a share of 0.25 at 95 %: where it looks first at 3, then after each, 90.9 % of intervals hold the
    mean; from 5 on, after each, 92.9 %; from 10 on, after each ten, 94.2 %; from 20 on, after each ten (as it
    is left out), 95.2 %.  The effect vanishes as the share becomes small (Chow and Robbins 1965), and it is
    worse where replications are far from normal.  For an interval that holds its confidence make `replicate` with the number that
    this found and another seed.  The half width is a share of the mean that was estimated: of the true one
    it may be share / (1 - share).

    Raises what `replicate` raises, and `ValueError` for a number out of range or a figure that is not there.

    >>> from twarp import Network
    >>> make = lambda seeds: Network().add("h", "hop", seed=seeds[0], ports=1, spread=9).add("t", "tally").couple("h", "t")
    >>> frame = until_precise(make, ("t", "count"), 0.05, until=1000, progress=False)
    >>> int(frame["replication"].max()) + 1
    20
    """
    end, start = _span(until, warmup)
    level = _confidence(confidence)
    if not share > 0:
        raise ValueError(f"share is above 0, not {share!r}")
    first, last = _whole("least", least, 2), _whole("most", most, 2)
    more = _whole("step", step, 1)
    base = _whole("seed", seed, 0)
    count = min(first, last)
    with _Bar(progress) as bar:
        frame = _replications(make, range(count), end, start, base, client, bar)
        while not _precise(frame, of, share, level) and count < last:
            upto = min(count + more, last)
            added = _replications(make, range(count, upto), end, start, base, client, bar)
            frame = pd.concat([frame, added], ignore_index=True)
            count = upto
    if not _precise(frame, of, share, level):
        told = f"after {count} replications a half width is still above {share:g} of its mean"
        warnings.warn(told, NotPrecise, stacklevel=2)
    frame.attrs["seed"] = base
    return frame


def _precise(frame: pd.DataFrame, of: Target, share: float, confidence: float) -> bool:
    if callable(of):
        rows = summary(of(frame), confidence)
    else:
        several: Any = [of] if isinstance(of, tuple) and isinstance(of[0], str) else of
        pairs = [tuple(pair) for pair in several]
        names = pd.MultiIndex.from_frame(frame[["component", "figure"]])
        for pair in pairs:
            if not names.isin([pair]).any():
                raise ValueError(f"the network has no figure {pair[1]!r} of a component {pair[0]!r}")
        rows = summary(frame[names.isin(pairs)], confidence)
    return bool((rows["half_width"] <= share * rows["mean"].abs()).all())


# Designs.


def _points(grid: Union[Mapping[str, Iterable[Any]], Iterable[Mapping[str, Any]]]) -> list[dict[str, Any]]:
    """The points of a grid: all combinations of a mapping's values, or the mappings of a list."""
    if isinstance(grid, Mapping):
        values = [list(given) for given in grid.values()]
        points = [dict(zip(grid, point)) for point in itertools.product(*values)]
    else:
        points = [dict(point) for point in grid]
    if not points:
        raise ValueError("the grid has no point")
    for point in points:
        if point.keys() != points[0].keys():
            raise ValueError(f"the points of a grid have the same parameters, not {list(points[0])} and {list(point)}")
    taken = {"replication", "component", "figure", *MEASURED}.intersection(points[0])
    if taken:
        raise ValueError(f"{sorted(taken)[0]!r} is a column of the frame, and no parameter of a grid")
    return points


def sweep(
    make: Callable[..., Network],
    grid: Union[Mapping[str, Iterable[Any]], Iterable[Mapping[str, Any]]],
    n: int,
    until: int,
    warmup: int = 0,
    seed: int = 0,
    client: Any = None,
    progress: bool = True,
    common: bool = True,
) -> pd.DataFrame:
    """Makes n replications at each point of a grid of parameters.

    - `make(seeds, **point)` gives the network of a replication at a point.
    - `grid`: a mapping from names to the values that each takes, of which all combinations are made, the last
      name fastest; or a list of mappings, which are the points.
    - `common`: replication k of each point has the same seeds (common random numbers), so points differ by
      the parameters more than by chance, and `compare` of two points is sharp.  Then the points are not
      independent of one another: for a regression over them that supposes so give ``common=False``.

    The others are those of `replicate`, and so is the frame, with a column for each parameter before the
    others.  All runs of all points share the processors.  `summary` gives a row for each point.

    Raises what `replicate` raises, and `ValueError` for a grid without points, points with other parameters
    than the first, and a parameter that is called like a column of the frame.

    >>> from twarp import Network
    >>> make = lambda seeds, period: Network().add("g", "gen", period=period, value=1)
    >>> frame = sweep(make, {"period": [2, 5]}, 2, until=100, progress=False)
    >>> summary(frame, value="gain")["mean"].tolist()
    [49.0, 19.0]
    """
    end, start = _span(until, warmup)
    many, base = _whole("n", n, 1), _whole("seed", seed, 0)
    points = _points(grid)
    heads = [(point, number) for point in points for number in range(many)]
    makes = []
    for place, (point, number) in enumerate(heads):
        seeds = Seeds(base, number if common else place)
        makes.append((_at(make, point), seeds))
    with _Bar(progress) as bar:
        told = _make_all(_tasks(makes), len(heads), end, start, client, bar)
    return _frame(heads, told, base)


def _at(make: Callable[..., Network], point: Mapping[str, Any]) -> Make:
    return lambda seeds: make(seeds, **point)


def compare(a: pd.DataFrame, b: pd.DataFrame, confidence: float = 0.95, value: str = "mean") -> pd.DataFrame:
    """The difference of two designs, b less a, replication by replication (paired).

    `a` and `b` are frames of `replicate` with the same seed and as many replications, so that both designs
    met the same random numbers where their components have seeds of the same names.  For each component and
    figure of both: `a` and `b`, the means; `difference`, the mean of b - a; `half_width` of its confidence
    interval by Student's t of the n differences; `n`; `correlation` of a and b over replications, by which
    pairing pays: at 0 it brings nothing, near 1 the interval is much narrower than that of two experiments.
    Where the interval does not hold 0 the designs differ; a statement on k rows together needs a confidence of
    1 - 0.05/k.

    Points of a sweep are compared by the rows of each: ``compare(frame[frame.servers == 1].drop(columns=
    "servers"), frame[frame.servers == 2].drop(columns="servers"))``.

    Raises `ValueError` where the frames have different replications or seeds, or no figure in common.

    >>> import pandas as pd
    >>> a = pd.DataFrame({"replication": [0, 1, 2], "component": "desk", "figure": "waiting", "mean": [2.0, 3, 4]})
    >>> print(compare(a, a.assign(mean=[3.0, 4.5, 5.0])).round(3))
                         a      b  difference  half_width  n  correlation
    component figure                                                     
    desk      waiting  3.0  4.167       1.167       0.717  3        0.961
    """
    level = _confidence(confidence)
    seeds = [frame.attrs["seed"] for frame in (a, b) if "seed" in frame.attrs]
    if len(seeds) == 2 and seeds[0] != seeds[1]:
        raise ValueError(f"the frames are of two seeds, {seeds[0]} and {seeds[1]}: their replications are no pairs")
    keys = _of(a, value)
    if _of(b, value) != keys:
        raise ValueError(f"the frames are of different kinds: {keys} and {_of(b, value)}")
    for frame in (a, b):
        if frame.duplicated([*keys, "replication"]).any():
            raise ValueError("a frame has a figure twice in one replication")
    if set(a["replication"]) != set(b["replication"]):
        raise ValueError("the frames have different replications: there is a pair for some only")
    both = a[[*keys, "replication", value]].merge(
        b[[*keys, "replication", value]], on=[*keys, "replication"], suffixes=("_a", "_b")
    )
    if both.empty:
        raise ValueError("the frames have no figure in common")
    rows = []
    heads = []
    for head, group in both.groupby(keys, sort=False, dropna=False):
        first = group[f"{value}_a"].to_numpy(dtype=float, na_value=np.nan)
        second = group[f"{value}_b"].to_numpy(dtype=float, na_value=np.nan)
        mean, _, half = _interval(second - first, level)
        heads.append(head if isinstance(head, tuple) else (head,))
        rows.append((first.mean(), second.mean(), mean, half, len(first), _correlation(first, second)))
    index = pd.MultiIndex.from_tuples(heads, names=keys)
    return pd.DataFrame(rows, columns=["a", "b", "difference", "half_width", "n", "correlation"], index=index)


def _correlation(first: np.ndarray[Any, Any], second: np.ndarray[Any, Any]) -> float:
    if len(first) < 2 or np.all(first == first[0]) or np.all(second == second[0]):
        return math.nan
    return float(np.corrcoef(first, second)[0, 1])
