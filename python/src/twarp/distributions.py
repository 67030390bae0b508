"""Distributions as tables of quantiles in whole ticks.

A machine of a network draws from a distribution by a table: ``wait gap[random(n)]; draw`` takes each of
the table's n numbers with the same share 1/n.  The functions of this module make such tables.

**How a table is made.**  The distribution is cut into n shares of probability 1/n each, from the shortest
times to the longest.  Share i gives one number: the mean of the distribution over that share.  So the mean
of all numbers is the mean of the distribution.  Then the numbers are rounded to whole ticks so that the
remainder of each is carried to the next one: the sum of the table differs from n times the mean by at
most half a tick, so its mean differs by at most half a tick in n.

**What a table leaves out.**  Within a share nothing varies, and no number lies beyond the mean of the last
share.  Measured against the distribution itself, with a mean of 1,000 ticks:

==========================  =======  =======  ========  ============  =================
distribution                numbers  mean     variance  longest time  share beyond it
==========================  =======  =======  ========  ============  =================
exponential                      20  0.000 %   -5.38 %     4.0 means   1.8 %
exponential                   1,000  0.000 %   -0.11 %     7.9 means   0.037 %
uniform, 0 to two means          20  0.000 %   -0.25 %     2.0 means   2.5 %
uniform, 0 to two means       1,000  0.000 %   -0.00 %     2.0 means   0.050 %
erlang, k = 4                    20  0.000 %   -2.68 %     2.3 means   1.9 %
erlang, k = 4                 1,000  0.000 %   -0.04 %     3.6 means   0.037 %
lognormal, sd = mean             20  0.000 %  -15.19 %     4.2 means   1.7 %
lognormal, sd = mean          1,000  0.000 %   -1.08 %    12.0 means   0.034 %
lognormal, sd = two means        20  0.000 %  -39.54 %     7.1 means   1.5 %
lognormal, sd = two means     1,000  0.000 %   -7.01 %    34.3 means   0.031 %
weibull, shape = 1/2             20  0.000 %  -26.33 %     8.5 means   1.6 %
weibull, shape = 1/2          1,000  0.000 %   -1.66 %    31.8 means   0.035 %
==========================  =======  =======  ========  ============  =================

So twenty numbers serve to try a network, and a thousand for most figures of it: in a queue the mean wait
is nearly proportional to the sum of the variances of gaps and services, so with a thousand exponential
numbers it is about 0.1 % short.  Where the tail decides (a lognormal of great spread, a bound that is
seldom passed) take more: ``numbers=65536``, which is the most that a machine takes.  With a mean of few
ticks the rounding itself adds variance, up to a quarter of a tick squared: choose a tick so that means are
some hundreds of ticks.
"""

from __future__ import annotations

import math
import numbers as _kinds
from fractions import Fraction
from typing import Any, Iterable, Sequence, Tuple, Union

import numpy as np
from scipy import special as _special
from scipy import stats as _stats

__all__ = [
    "Table",
    "constant",
    "empirical",
    "erlang",
    "exponential",
    "lognormal",
    "table_of",
    "uniform",
    "weibull",
]

MOST_NUMBERS = 65_536
"""The most numbers that a table of a machine may have."""

MOST_TICKS = 1_099_511_627_774
"""The longest wait in ticks."""

# Nodes of the quadrature rules: Gauss-Legendre within a share, Gauss-Laguerre in the outermost two.
_INNER = 24
_OUTER = 96

# More values of a discrete distribution than these are not looked at one by one.
_MANY = 1_000_000


class Table(Tuple[int, ...]):
    """A table of quantiles: whole numbers of ticks, in order, each of which is drawn with the same share.

    It is a tuple of ``int``, so a network takes it wherever a machine's parameter is a list.

    >>> table = Table([1, 2, 6], "three numbers")
    >>> table, table.mean, table.variance
    (<three numbers: 3 numbers, mean 3 ticks>, Fraction(3, 1), Fraction(14, 3))
    """

    of: str
    """What the table is of, such as ``exponential(500)``."""

    def __new__(cls, values: Iterable[int], of: str = "table") -> "Table":
        """Makes a table of whole numbers of ticks.

        Raises ``ValueError`` where there are none or more than 65,536, where one is negative or longer than
        1,099,511,627,774 ticks, and ``TypeError`` where one is no whole number.
        """
        whole: list[Any] = []
        for value in values:
            if isinstance(value, bool) or not isinstance(value, _kinds.Integral):
                raise TypeError(f"{of}: a table has whole numbers of ticks, and {value!r} is none")
            whole.append(int(value))
        if not 1 <= len(whole) <= MOST_NUMBERS:
            raise ValueError(f"{of}: a table has 1 to {MOST_NUMBERS} numbers, not {len(whole)}")
        whole.sort()
        if whole[0] < 0:
            raise ValueError(f"{of}: a time is not negative, and {whole[0]} is")
        if whole[-1] > MOST_TICKS:
            raise ValueError(f"{of}: the longest time is {MOST_TICKS} ticks, and {whole[-1]} is longer")
        made = super().__new__(cls, whole)
        made.of = of
        return made

    def __getnewargs__(self) -> tuple[Any, ...]:
        return (list(self), self.of)

    def __repr__(self) -> str:
        return f"<{self.of}: {len(self)} numbers, mean {_short(self.mean)} ticks>"

    @property
    def mean(self) -> Fraction:
        """The exact mean in ticks of a number that is drawn from the table."""
        return Fraction(sum(self), len(self))

    @property
    def variance(self) -> Fraction:
        """The exact variance in ticks squared of a number that is drawn from the table.

        It is that of the draw (divided by the count), not an estimate from a sample.
        """
        return Fraction(sum(value * value for value in self), len(self)) - self.mean**2

    @property
    def scv(self) -> Fraction:
        """The squared coefficient of variation: the variance by the square of the mean, 0 where that is 0."""
        return self.variance / self.mean**2 if self.mean else Fraction(0)


def _short(value: Union[Fraction, float]) -> str:
    return f"{float(value):.10g}"


def _count(numbers: int) -> int:
    if isinstance(numbers, bool) or not isinstance(numbers, _kinds.Integral):
        raise TypeError(f"numbers is a whole number, not {numbers!r}")
    if not 1 <= numbers <= MOST_NUMBERS:
        raise ValueError(f"numbers is 1 to {MOST_NUMBERS}, not {numbers}")
    return int(numbers)


def _positive(name: str, value: float) -> float:
    number = float(value)
    if not (math.isfinite(number) and number > 0):
        raise ValueError(f"{name} is greater than 0 and finite, not {value!r}")
    return number


def _rounded(shares: Sequence[float] | np.ndarray[Any, Any], of: str) -> Table:
    """A table of the means of the shares, the remainder of each carried to the next."""
    means = np.asarray(shares, dtype=float)
    if not np.all(np.isfinite(means)):
        raise ValueError(f"{of}: it has no finite mean")
    if means.min() < 0:
        raise ValueError(f"{of}: a time is not negative, and the mean of its shortest share is {means.min():.6g} ticks")
    if means.max() > MOST_TICKS:
        raise ValueError(f"{of}: the longest time is {MOST_TICKS} ticks, and {means.max():.6g} is longer")
    values = []
    total = Fraction(0)
    given = 0
    for mean in means:
        total += Fraction(float(mean))
        upto = math.floor(total + Fraction(1, 2))
        values.append(upto - given)
        given = upto
    return Table(values, of)


def _continuous(dist: Any, count: int) -> np.ndarray[Any, Any]:
    """The means of the shares of a continuous distribution of scipy.

    Within the distribution by Gauss-Legendre on the quantile function; in the outermost shares, where it may
    have no bound, by Gauss-Laguerre in the logarithm of the probability that is left.
    """
    if count == 1:
        return np.array([float(dist.mean())])
    node, weight = _special.roots_legendre(_INNER)
    at = (node + 1) / 2
    share = weight / 2
    depth, mass = _special.roots_laguerre(_OUTER)
    left = np.exp(-depth[mass > 0]) / count
    means = np.empty(count)
    with np.errstate(all="ignore"):
        for start in range(1, count - 1, 4096):
            index = np.arange(start, min(start + 4096, count - 1))
            low = 2 * index < count  # quantiles of the upper half are taken from above, where floats are fine
            means[index[low]] = dist.ppf((index[low, None] + at) / count) @ share
            means[index[~low]] = dist.isf((count - index[~low, None] - at) / count) @ share
        means[0] = dist.ppf(left) @ mass[mass > 0]
        means[-1] = dist.isf(left) @ mass[mass > 0]
    # What the distribution's own mean leaves to an outermost share decides where that has no bound.
    lowest, highest = dist.support()
    rest = float(dist.mean()) * count - float(means[1:-1].sum())
    if math.isinf(highest) and math.isfinite(means[0]):
        means[-1] = rest - means[0]
    elif math.isinf(lowest):
        means[0] = rest - means[-1]
    return means


def _discrete(dist: Any, count: int) -> np.ndarray[Any, Any]:
    """The means of the shares of a discrete distribution of scipy, from its probabilities."""
    edge = 1e-13 / count
    first, last = int(dist.ppf(edge)), int(dist.isf(edge))
    if last - first > _MANY:  # steps so small that the quantile function is as good as smooth
        return _continuous(dist, count)
    values = np.arange(first, last + 1)
    upto = np.clip(dist.cdf(values), 0, 1)
    upto[-1] = 1.0
    return _shares(values.astype(float), upto, count)


def _shares(values: np.ndarray[Any, Any], upto: np.ndarray[Any, Any], count: int) -> np.ndarray[Any, Any]:
    """The means of the shares of a distribution of steps: ``upto`` is the probability up to each value."""
    cuts = np.linspace(0.0, 1.0, count + 1)
    edges = np.unique(np.concatenate([cuts, upto]))
    middle = (edges[1:] + edges[:-1]) / 2
    held = values[np.minimum(np.searchsorted(upto, middle), len(values) - 1)]
    sums = np.concatenate([[0.0], np.cumsum(held * np.diff(edges))])
    at = np.searchsorted(edges, cuts)
    return np.diff(sums[at]) * count


def table_of(distribution: Any, numbers: int = 1_000) -> Table:
    """A table of any distribution: a frozen one of ``scipy.stats``, a table, or a sequence of whole ticks.

    ``numbers`` is how many quantiles the table has, 1 to 65,536; a table, and a sequence, stay as they are.
    Times are in ticks.  Raises ``ValueError`` where the distribution has no finite mean, or where the mean
    of its shortest share is negative; ``TypeError`` where it is none of these.

    >>> from scipy import stats
    >>> table_of(stats.gamma(2, scale=100), numbers=8)
    <gamma(2, scale=100): 8 numbers, mean 200 ticks>
    >>> list(table_of(stats.poisson(3), numbers=4))
    [1, 2, 4, 5]
    >>> list(table_of([4, 1, 1]))
    [1, 1, 4]
    """
    if isinstance(distribution, Table):
        return distribution
    kind = getattr(distribution, "dist", None)
    if kind is not None and hasattr(distribution, "ppf"):
        count = _count(numbers)
        of = _told(distribution)
        mean = float(distribution.mean())
        if not math.isfinite(mean):
            raise ValueError(f"{of}: it has no finite mean")
        discrete = isinstance(kind, _stats.rv_discrete)
        return _rounded((_discrete if discrete else _continuous)(distribution, count), of)
    if isinstance(distribution, (list, tuple, np.ndarray, range)):
        return Table(_whole(distribution), "numbers")
    raise TypeError(
        f"{distribution!r} is no distribution: it is a table of twarp.distributions, a frozen distribution of "
        "scipy.stats, or a sequence of whole numbers of ticks"
    )


def _whole(values: Iterable[Any]) -> list[Any]:
    return [value.item() if isinstance(value, np.generic) else value for value in values]


def _told(dist: Any) -> str:
    words = [_value(value) for value in dist.args]
    words += [f"{name}={_value(value)}" for name, value in dist.kwds.items()]
    return f"{dist.dist.name}({', '.join(words)})"


def _value(value: Any) -> str:
    return _short(float(value)) if isinstance(value, _kinds.Real) else repr(value)


def _named(dist: Any, numbers: int, of: str) -> Table:
    made = table_of(dist, numbers)
    made.of = of
    return made


def exponential(mean: float, numbers: int = 1_000) -> Table:
    """The exponential distribution with this mean in ticks: gaps of a Poisson process, in a table.

    With 20 numbers the variance is 5.4 % short and no time is longer than 4 means; with 1,000 it is 0.11 %
    short, and none is longer than 7.9 means (of the distribution itself 0.037 % are).  The mean is kept.
    Raises ``ValueError`` where the mean is not greater than 0.

    >>> list(exponential(10, numbers=8))
    [1, 2, 3, 6, 9, 11, 17, 31]
    >>> exponential(500).mean
    Fraction(500, 1)
    """
    mean = _positive("mean", mean)
    return _named(_stats.expon(scale=mean), numbers, f"exponential({_short(mean)})")


def uniform(a: float, b: float, numbers: int = 1_000) -> Table:
    """The uniform distribution from a to b ticks, in a table.

    With n numbers the variance is 1/n^2 short: 0.25 % with 20.  Raises ``ValueError`` where a is negative or
    b is less than a.

    >>> list(uniform(0, 80, numbers=4))
    [10, 30, 50, 70]
    """
    a, b = float(a), float(b)
    if not (math.isfinite(a) and math.isfinite(b) and 0 <= a <= b):
        raise ValueError(f"uniform: 0 <= a <= b, not a = {a:g} and b = {b:g}")
    of = f"uniform({_short(a)}, {_short(b)})"
    count = _count(numbers)
    return _rounded(a + (b - a) * (np.arange(count) + 0.5) / count, of)


def erlang(k: int, mean: float, numbers: int = 1_000) -> Table:
    """The Erlang distribution of k phases with this mean in ticks, in a table.

    It is the sum of k exponential times of mean/k each; its variance is mean^2/k.  Raises ``ValueError``
    where k is less than 1 or the mean is not greater than 0.

    >>> erlang(4, 200)
    <erlang(4, 200): 1000 numbers, mean 200 ticks>
    """
    if isinstance(k, bool) or not isinstance(k, _kinds.Integral) or k < 1:
        raise ValueError(f"erlang: k is a whole number from 1, not {k!r}")
    mean = _positive("mean", mean)
    return _named(_stats.gamma(int(k), scale=mean / int(k)), numbers, f"erlang({int(k)}, {_short(mean)})")


def lognormal(mean: float, sd: float, numbers: int = 1_000) -> Table:
    """The lognormal distribution with this mean and standard deviation, both in ticks, in a table.

    These are the mean and standard deviation of the times, not of their logarithms.  Its tail is long: with
    sd equal to the mean 1,000 numbers cut 1.1 % of the variance off, with twice the mean 7 %.  Raises
    ``ValueError`` where one of them is not greater than 0.

    >>> lognormal(300, 150)
    <lognormal(300, 150): 1000 numbers, mean 300 ticks>
    """
    mean, sd = _positive("mean", mean), _positive("sd", sd)
    spread = math.sqrt(math.log1p((sd / mean) ** 2))
    dist = _stats.lognorm(spread, scale=mean * math.exp(-spread * spread / 2))
    return _named(dist, numbers, f"lognormal({_short(mean)}, {_short(sd)})")


def weibull(shape: float, mean: float, numbers: int = 1_000) -> Table:
    """The Weibull distribution of this shape with this mean in ticks, in a table.

    Shape 1 is the exponential; below 1 a machine that has lived long is likely to live longer, above 1 it
    wears out.  The scale is the mean by gamma(1 + 1/shape).  Raises ``ValueError`` where one of them is not
    greater than 0.

    >>> weibull(2, 1000)
    <weibull(2, 1000): 1000 numbers, mean 1000 ticks>
    """
    shape, mean = _positive("shape", shape), _positive("mean", mean)
    dist = _stats.weibull_min(shape, scale=mean / math.gamma(1 + 1 / shape))
    return _named(dist, numbers, f"weibull({_short(shape)}, {_short(mean)})")


def constant(ticks: int) -> Table:
    """Always the same time, a whole number of ticks: a table of one number.

    Raises ``TypeError`` where it is no whole number, ``ValueError`` where it is negative.

    >>> constant(7), list(constant(7))
    (<constant(7): 1 numbers, mean 7 ticks>, [7])
    """
    return Table([ticks], f"constant({ticks!r})")


def empirical(samples: Iterable[float], numbers: int = 1_000) -> Table:
    """What was observed, in ticks, in a table: each sample has the same share.

    With as many numbers as samples (and whole samples) the table is the samples.  With fewer each number is
    the mean of its share of them, so their mean is kept within half a tick by ``numbers``.  Raises
    ``ValueError`` where there is no sample, or one is negative or not finite.

    >>> list(empirical([5, 1, 1, 9], numbers=4))
    [1, 1, 5, 9]
    >>> list(empirical([5, 1, 1, 9], numbers=2))
    [1, 7]
    >>> empirical([5, 1, 1, 9]).mean
    Fraction(4, 1)
    """
    values = np.sort(np.asarray(list(samples), dtype=float))
    count = _count(numbers)
    if values.size == 0:
        raise ValueError("empirical: there is no sample")
    if not np.all(np.isfinite(values)):
        raise ValueError("empirical: a sample is not finite")
    if values[0] < 0:
        raise ValueError(f"empirical: a time is not negative, and {values[0]:g} is")
    of = f"empirical of {values.size} samples"
    if count == values.size:
        return _rounded(values, of)
    upto = np.arange(1, values.size + 1) / values.size
    return _rounded(_shares(values, upto, count), of)
