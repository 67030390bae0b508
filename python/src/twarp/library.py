"""Machines for queues, plants and stores, ready to use.

Each is a model that stands as JSON in a file of the folder ``library`` beside this module, with a small
network around it: ``twarp stats library/server.json --until 20000`` runs without Python.  Here a function of
the same name gives a `Part`: the machine and the parameters of one component of it, checked.

>>> from twarp.distributions import exponential
>>> desk = server(exponential(80), seed=2, servers=2, room=10)
>>> desk
<server: seed=2, servers=2, capacity=12, n=1000, times=[1000 numbers]>
>>> from twarp import Network
>>> network = Network()
>>> _ = network.add("arrivals", source(exponential(50), seed=1)).add("desk", desk).add("out", sink())
>>> _ = network.couple("arrivals", "desk").couple("desk", "out")
>>> network.check()
Size(components=3, couplings=2, inputs=0)

``network.use(desk.machine).add("desk", desk.model, **desk.parameters)`` says the same in full.

**What all have in common.**  Times are whole ticks.  A time that is drawn may be 0: then the step is made in
the next microstep of the same tick.  Where something comes and goes in one tick, what goes leaves first.
A *value* is a whole number that a customer, a part or an order carries from machine to machine; a source
sends the tick at which the customer came, so a sink knows how long the customer was under way.  ``seed`` is
where a component's random numbers start: two components need two seeds (`twarp.replicate` gives them).

**Figures.**  The words of each machine are figures of ``run.stats()`` and of `twarp.replicate`: a count
tells by its ``last`` how often something was, and a state (``waiting``, ``working``, ``stock``) by its
``mean`` how much of it there was over time.  The mean of a sum for each customer is a ratio, as of ``waited``
by ``starts``: `twarp.ratio`.

**What they were held against.**  "Theory" in each docstring names the closed formulas; the package's tests
hold confidence intervals of 30 replications against them.
"""

from __future__ import annotations

import json
import math
import operator
from fractions import Fraction
from functools import lru_cache
from pathlib import Path
from typing import Any, Iterable, Mapping, Optional, Sequence, SupportsIndex, Union

from .distributions import MOST_NUMBERS, MOST_TICKS, Table, constant, table_of

__all__ = [
    "Part",
    "batcher",
    "breaking_machine",
    "delay",
    "file_of",
    "names",
    "priority_server",
    "router",
    "server",
    "sink",
    "source",
    "splitter",
    "store",
]

_FOLDER = Path(__file__).parent / "library"
_LONG = 2**63

#: What a time may be given as: a table, a frozen distribution of scipy.stats, or whole ticks.
Times = Union[Table, Sequence[int], SupportsIndex, Any]


class Part:
    """A component to be: a machine of the library, and the component's parameters.

    `model` is the machine's name, `machine` the object that `Network.use` takes (shared: not to be
    changed), `parameters` what `Network.add` takes for it.  `Network.add(name, part)` does both.

    >>> part = splitter(copies=3)
    >>> part.model, part.parameters
    ('splitter', {'copies': 3, 'ports': 1})
    """

    __slots__ = ("machine", "parameters")

    def __init__(self, machine: Mapping[str, Any], parameters: Mapping[str, Any]) -> None:
        self.machine = machine
        self.parameters = dict(parameters)

    @property
    def model(self) -> str:
        """The machine's name."""
        return str(self.machine["name"])

    def __repr__(self) -> str:
        told = []
        for name, value in self.parameters.items():
            many = isinstance(value, (list, tuple))
            told.append(f"{name}=[{len(value)} numbers]" if many else f"{name}={value}")
        return f"<{self.model}: {', '.join(told)}>"


def names() -> tuple[str, ...]:
    """The names of the library's machines, in order of the alphabet.

    >>> len(names()), names()[:3]
    (10, ('batcher', 'breaking_machine', 'delay'))
    """
    return tuple(sorted(path.stem for path in _FOLDER.glob("*.json")))


def file_of(name: str) -> Path:
    """The path of a machine's file: a network of format tw-3 that runs by itself.

    Raises `KeyError` where the library has no machine of this name.

    >>> file_of("server").name
    'server.json'
    """
    if name not in names():
        raise KeyError(f"the library has no machine {name!r}: it has {', '.join(names())}")
    return _FOLDER / f"{name}.json"


@lru_cache(maxsize=None)
def _machine(name: str) -> Mapping[str, Any]:
    file = json.loads(file_of(name).read_text(encoding="ascii"))
    for machine in file["models"]:
        if machine["name"] == name:
            found: Mapping[str, Any] = machine
            return found
    raise KeyError(name)


def _part(model: str, **parameters: Any) -> Part:
    return Part(_machine(model), parameters)


def _whole(name: str, value: Any, least: int, most: int) -> int:
    if isinstance(value, bool):
        raise TypeError(f"{name} is a whole number, not {value!r}")
    try:
        number = operator.index(value)
    except TypeError:
        raise TypeError(f"{name} is a whole number, not {value!r}") from None
    if not least <= number <= most:
        raise ValueError(f"{name} is {least} to {most}, not {number}")
    return number


def _seed(value: Any) -> int:
    return _whole("seed", value, -_LONG, _LONG - 1)


def _times(name: str, times: Times) -> Table:
    """A table of what was given for a time."""
    try:
        if not isinstance(times, bool) and hasattr(times, "__index__"):
            return constant(operator.index(times))
        return table_of(times)
    except (TypeError, ValueError) as error:
        raise type(error)(f"{name}: {error}") from None


def _carried(value: str) -> bool:
    if value not in ("time", "number"):
        raise ValueError(f'value is "time" or "number", not {value!r}')
    return value == "number"


def source(gaps: Times, seed: int, most: Optional[int] = None, value: str = "time") -> Part:
    """Renewal arrivals: a customer after each gap, which is drawn from a table.

    - `gaps`: the ticks between two customers.  The first comes after one gap (not at tick 0).  Exponential
      gaps make a Poisson process.
    - `seed`: where its random numbers start.
    - `most`: how many customers come; all that the run has time for where it is left out.
    - `value`: each customer carries the tick at which he comes (`"time"`), or his number, from 1
      (`"number"`).

    States: how many it has sent.  Ports: sends on 0, takes nothing.  Words: `made`, the customers so far.

    Theory: the mean number by a tick t of a Poisson process, and its variance, both t by the mean gap.

    Raises `ValueError` for a number out of range and `TypeError` for what is no number or distribution.

    >>> from twarp.distributions import exponential
    >>> source(exponential(500), seed=1, most=100)
    <source: seed=1, n=1000, most=100, numbered=0, gaps=[1000 numbers]>
    """
    table = _times("gaps", gaps)
    end = _LONG - 1 if most is None else _whole("most", most, 0, _LONG - 1)
    numbered = int(_carried(value))
    return _part("source", seed=_seed(seed), n=len(table), most=end, numbered=numbered, gaps=table)


def server(service: Times, seed: int, servers: int = 1, room: Optional[int] = None) -> Part:
    """Servers with one line before them: first come, first served; who finds no place is lost.

    - `service`: the ticks of a service.
    - `seed`: where its random numbers start.
    - `servers`: how many customers are served at once, 1 to 1,024.
    - `room`: places in the line, 0 and more; servers and room together are at most 1,024, which they are
      where it is left out.  So in Kendall's notation it is G/G/c/K with c = servers, K = servers + room.

    States: the ends of services in order, who is served, who waits and since when.  Ports: takes customers
    on any port; sends each served one, with the value that he carries, on 0.  Words: `served`, how many
    services have ended; `lost`; `starts`, how many services have begun, which is how many waits are known;
    `waited`, the sum of these waits in ticks, a wait of 0 counted too; `working`, how many servers work now;
    `waiting`, how many customers are in the line now.

    Theory: M/M/1, M/M/1/K, M/M/c (Erlang C), M/D/1 and M/G/1 (Pollaczek and Khinchine), M/M/c/c (Erlang B),
    a tandem and an open Jackson network: mean numbers in line and in all, mean waits, losses.

    Raises `ValueError` for a number out of range and `TypeError` for what is no number or distribution.

    >>> from twarp.distributions import erlang
    >>> server(erlang(3, 400), seed=2, servers=4, room=0)
    <server: seed=2, servers=4, capacity=4, n=1000, times=[1000 numbers]>
    """
    table = _times("service", service)
    many = _whole("servers", servers, 1, 1_024)
    places = 1_024 - many if room is None else _whole("room", room, 0, 1_024 - many)
    return _part("server", seed=_seed(seed), servers=many, capacity=many + places, n=len(table), times=table)


def priority_server(
    service: Union[Times, Sequence[Times]], seed: int, servers: int = 1, classes: int = 2, room: int = 500
) -> Part:
    """Servers with a line for each class of customers; the most urgent class is served first.

    A service that has begun goes on to its end (head of the line, not preemptive).

    - `service`: the ticks of a service, as one number or table for all classes; or a list with one for each
      class, of tables of the same length (or a part of it: `constant` goes with all).
    - `seed`: where its random numbers start.
    - `servers`: how many customers are served at once, 1 to 32.
    - `classes`: 1 to 4; class 0 is the most urgent.
    - `room`: places in the line of each class, 1 to 500.

    States: the ends of services in order, who is served and of which class, who waits in each line and since
    when.  Ports: takes a customer of class k on port k (of the last class above it), and sends him, served,
    on port k.  Words: `served[k]`, `lost[k]`, `starts[k]`, `waited[k]`, `waiting[k]` of each class k as of
    `server`, k from 0 to 3 whatever `classes` is; `working`, how many servers work now.

    Theory: M/G/1 with priorities that do not preempt (Cobham 1954): the mean wait of each class.

    Raises `ValueError` for a number out of range or tables of two lengths, and `TypeError` for what is no
    number or distribution.

    >>> from twarp.distributions import exponential
    >>> priority_server([exponential(400), exponential(200)], seed=3).parameters["times"][:3]
    [0, 1, 1]
    """
    many = _whole("classes", classes, 1, 4)
    times, length = _by_class(service, many)
    return _part(
        "priority_server",
        seed=_seed(seed),
        servers=_whole("servers", servers, 1, 32),
        classes=many,
        room=_whole("room", room, 1, 500),
        n=length,
        times=times,
    )


def _by_class(service: Any, classes: int) -> tuple[list[int], int]:
    """The tables of all classes, one behind the other, and how long each is."""
    if not isinstance(service, (list, tuple)) or isinstance(service, Table):
        tables = [_times("service", service)] * classes
    elif all(hasattr(one, "__index__") for one in service):
        raise TypeError(
            "service: a list of numbers is no clear answer: Table([5, 9]) is one table for all classes, "
            "[constant(5), constant(9)] has one for each"
        )
    else:
        tables = [_times("service", one) for one in service]
    if len(tables) != classes:
        raise ValueError(f"service has {len(tables)} tables, for {classes} classes")
    longest = max(len(table) for table in tables)
    if any(longest % len(table) for table in tables):
        raise ValueError("service: the tables of all classes have the same length, or a part of it")
    if longest * classes > MOST_NUMBERS:
        raise ValueError(f"service: {longest * classes} numbers for all classes, at most {MOST_NUMBERS}")
    return [number for table in tables for number in table for _ in range(longest // len(table))], longest


def router(weights: Iterable[Any], seed: int, numbers: int = 10_000) -> Part:
    """Sends each item on one of its ports, drawn by weights, at the same tick.

    - `weights`: one for each port from 0 on, 1 to 16 of them, not negative.  Whole numbers (and fractions
      whose shares come to few parts) are met exactly; others with an error of at most 1 in `numbers`.
    - `seed`: where its random numbers start.
    - `numbers`: how long its table is at the most, 16 to 65,536.

    States: the items that it has yet to send.  Ports: takes items on any port, sends on 0 to 15.  Each item
    takes a microstep, and it holds 512: of more in one tick the rest is lost.  Words: `lost`; `sent[p]`, how
    many went on port p, p from 0 to 15.

    Theory: the numbers by port are multinomial (a chi-square test); an open Jackson network with feedback.

    Raises `ValueError` for weights that are negative, all 0, or too many.

    >>> router([1, 2, 1], seed=4)
    <router: seed=4, shares=[4 numbers], n=4>
    >>> router([0.5, 0.25, 0.25], seed=4)
    <router: seed=4, shares=[4 numbers], n=4>
    """
    most = _whole("numbers", numbers, 16, MOST_NUMBERS)
    given = [_weight(weight) for weight in weights]
    if not 1 <= len(given) <= 16:
        raise ValueError(f"weights are 1 to 16, not {len(given)}")
    total = sum(given)
    if total == 0:
        raise ValueError("weights: one of them is above 0")
    shares = [weight / total for weight in given]
    parts = math.lcm(*(share.denominator for share in shares))
    if parts > most:
        parts = most
    counts = [math.floor(share * parts) for share in shares]
    rest = sorted(range(len(shares)), key=lambda port: (counts[port] - shares[port] * parts, port))
    for port in rest[: parts - sum(counts)]:
        counts[port] += 1
    table = [port for port, count in enumerate(counts) for _ in range(count)]
    return _part("router", seed=_seed(seed), shares=table, n=len(table))


def _weight(value: Any) -> Fraction:
    try:
        # A float is meant as it is written: 0.1 is a tenth.
        weight = Fraction(repr(float(value))) if isinstance(value, float) else Fraction(value)
    except (TypeError, ValueError, OverflowError):
        raise ValueError(f"weights: {value!r} is no number") from None
    if weight < 0:
        raise ValueError(f"weights: {value!r} is negative")
    return weight


def delay(time: Times, seed: int, room: int = 1_024) -> Part:
    """Holds each item for a time of its own, all at once: a way, a lead time, servers without end.

    - `time`: the ticks that an item stays.
    - `seed`: where its random numbers start.
    - `room`: how many may be inside at once, 1 to 1,024; who comes then is lost.

    States: the ends in order, and whose they are.  Ports: takes items on any port; sends each with its value
    on 0.  Words: `served`, `lost`, `inside`, how many are there now.

    Theory: M/M/infinity and M/G/infinity: the mean number inside is the mean time by the mean gap, whatever
    the distribution.

    Raises `ValueError` for a number out of range and `TypeError` for what is no number or distribution.

    >>> from twarp.distributions import uniform
    >>> delay(uniform(100, 200), seed=5).parameters["room"]
    1024
    """
    table = _times("time", time)
    return _part("delay", seed=_seed(seed), room=_whole("room", room, 1, 1_024), n=len(table), times=table)


def batcher(size: int, patience: Optional[int] = None) -> Part:
    """Collects items and sends one for each full batch: a lorry, an oven.

    - `size`: how many items make a batch, 1 to 1,000,000.
    - `patience`: after so many ticks since its first item a batch goes though it is not full; it waits
      without end where this is left out.

    States: how many are in the batch, the value of the first, since when.  Ports: takes items on any port;
    sends on 0 one item a batch, with the value of the batch's first one.  Words: `batches`, how many were
    sent; `items`, how many were in them; `waited`, the sum of these items' waits in ticks; `inside`, how many
    wait now.

    Theory: of a Poisson process with mean gap a and batches of b, an item waits (b - 1) a / 2 in the mean and
    (b - 1) / 2 are inside; with patience p and no bound on the size a batch has 1 + p / a items in the mean.

    Raises `ValueError` for a number out of range.

    >>> batcher(8, patience=400)
    <batcher: size=8, patience=400>
    """
    waits = -1 if patience is None else _whole("patience", patience, 0, MOST_TICKS)
    return _part("batcher", size=_whole("size", size, 1, 1_000_000), patience=waits)


def splitter(copies: int = 1, ports: int = 1) -> Part:
    """Makes many of one: each item goes out so many times on each of so many ports, at the same tick.

    - `copies`: how many on each port, 1 to 64.
    - `ports`: on how many ports, 0 to `ports` - 1, 1 to 16.

    States: the copies that it has yet to send.  Ports: takes items on any port; sends their values on ports 0
    to `ports` - 1.  Each copy takes a microstep, and it holds 1,024: an item for which there is no room is
    lost.  Words: `items`, how many came; `sent`, how many went out on all ports; `lost`.

    Theory: what goes out on each port is `copies` times what came.

    Raises `ValueError` for a number out of range.

    >>> splitter(copies=3, ports=2)
    <splitter: copies=3, ports=2>
    """
    return _part("splitter", copies=_whole("copies", copies, 1, 64), ports=_whole("ports", ports, 1, 16))


def breaking_machine(
    service: Times, life: Times, repair: Times, seed: int, room: int = 10, credits: Optional[int] = None
) -> Part:
    """A machine with a buffer that fails while it works, is repaired, and blocks where there is no place.

    A part that was interrupted goes on where it was.  The machine ages only while it works.

    - `service`: the ticks of work on a part.
    - `life`: the ticks of work until it fails, drawn anew after each repair.
    - `repair`: the ticks of a repair.
    - `seed`: where its random numbers start.
    - `room`: places in the buffer before it, 1 to 1,024; a part that finds none is lost.
    - `credits`: how many places there are behind it at the start.  It takes one for each part that it sends,
      gets one back for each item on port 1, and holds a finished part while it has none (blocking after
      service).  Where it is left out it never blocks.

    States: the part in the machine and what is left of its work, what is left of the life, the end of the
    repair, the buffer, the credits.  Ports: takes parts on 0 and credits on 1; sends parts, with their
    values, on 0, and on 1 a credit for each part that it takes from its buffer.  So two in a row without loss:
    `couple("saw", 0, "press", 0)`, `couple("press", 1, "saw", 1)`, and the credits of the saw are the room of
    the press.  Words: `done`, `lost`, `breaks`; 1 or 0 as it is `working`, `down` or `blocked` now;
    `waiting`, how many parts are in the buffer now.

    Theory: M/G/1 with exponential lives, by completion times (Gaver 1962, Avi-Itzhak and Naor 1963): parts
    in line, shares of working and down.  Two exponential machines in a row, the first never without a part,
    with b places between: it is M/M/1/(b + 2), so with equal speeds (b + 2)/(b + 3) of one machine's.

    Raises `ValueError` for a number out of range and `TypeError` for what is no number or distribution.

    >>> from twarp.distributions import exponential
    >>> saw = breaking_machine(exponential(400), exponential(9000), exponential(1500), seed=6, room=4, credits=2)
    >>> saw.parameters["room"], saw.parameters["credits"]
    (4, 2)
    """
    times, lives, repairs = _times("service", service), _times("life", life), _times("repair", repair)
    if lives[-1] == 0:
        raise ValueError("life: some life is longer than 0 ticks")
    return _part(
        "breaking_machine",
        seed=_seed(seed),
        room=_whole("room", room, 1, 1_024),
        credits=-1 if credits is None else _whole("credits", credits, 0, _LONG - 1),
        times_n=len(times),
        times=times,
        lives_n=len(lives),
        lives=lives,
        repairs_n=len(repairs),
        repairs=repairs,
    )


def store(low: int, high: int, seed: int, sizes: Times = 1) -> Part:
    """A store that orders up to a level: the (s, S) rule, with back orders.

    It looks at its position (stock, less what it owes, and what is ordered) after each customer and each
    delivery.  Where that is `low` or less it orders so much that it is `high`.

    - `low`, `high`: whole numbers, low below high, of at most a million millions; `low` = `high` - 1 is the
      base-stock rule, which orders after each customer.
    - `seed`: where its random numbers start.
    - `sizes`: how many pieces a customer wants: a whole number, or a table of them.

    States: stock, what is owed, what is ordered.  Ports: a customer on port 0, whatever his value; on port 1 a
    delivery, whose value is how many pieces come.  It sends on port 0 its orders, whose value is how many
    pieces it wants; a `delay` that is coupled back to port 1 is a supplier.  Words: `stock` (at the start
    `high`), `owed`, `ordered`; `customers`; `wanted`, the pieces they wanted; `short`, the pieces that were
    not there when they were wanted; `orders`, how many orders it made.

    Theory: base stock with Poisson customers and any lead times: what is ordered is Poisson (Palm 1938), so
    the share of pieces that are short, and the means of stock and of what is owed, have closed formulas.

    Raises `ValueError` for a number out of range and `TypeError` for what is no number or distribution.

    >>> store(low=12, high=20, seed=7)
    <store: seed=7, low=12, high=20, n=1, sizes=[1 numbers]>
    """
    most = 10**12
    table = _times("sizes", sizes)
    least = _whole("low", low, -most, most)
    upto = _whole("high", high, -most, most)
    if least >= upto:
        raise ValueError(f"low is below high, not {least} and {upto}")
    if upto < 0:
        raise ValueError(f"high is 0 or more, not {upto}")
    return _part("store", seed=_seed(seed), low=least, high=upto, n=len(table), sizes=table)


def sink(width: int = 100, value: str = "time") -> Part:
    """The end of the way: counts, and a histogram of the times that values carry.

    - `width`: the ticks of a bin, 1 and more.  Bin k has the times from k to k + 1 widths; the last, 39, has
      all longer ones, and bin 0 also negative numbers.
    - `value`: a value is the tick at which the customer came, and the time is from then to now (`"time"`); or
      it is itself what counts (`"number"`).

    States: the sums.  Ports: takes items on any port, sends nothing.  Words: `count`; `total`, the sum of the
    times in ticks; `squares`, the sum of their squares (modulo 2^64 with sign); `bins[k]`, k from 0 to 39.

    Theory: the times in M/M/1 are exponential: mean, mean of squares and histogram.

    Raises `ValueError` for a number out of range.

    >>> sink(width=250)
    <sink: width=250, aged=1>
    """
    return _part("sink", width=_whole("width", width, 1, _LONG - 1), aged=int(not _carried(value)))
