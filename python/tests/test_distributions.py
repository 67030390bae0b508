"""Distributions as tables: means that are kept, quantiles that are right, faults that are told."""

import copy
import math
import pickle
from fractions import Fraction

import numpy as np
import pytest
from scipy import stats

from twarp import Network, distributions, library
from twarp.distributions import (
    MOST_NUMBERS,
    Table,
    constant,
    empirical,
    erlang,
    exponential,
    lognormal,
    table_of,
    uniform,
    weibull,
)

MADE = {
    "exponential": (lambda n, m: exponential(m, n), lambda m: stats.expon(scale=m)),
    "uniform": (lambda n, m: uniform(m / 2, 3 * m / 2, n), lambda m: stats.uniform(m / 2, m)),
    "erlang": (lambda n, m: erlang(3, m, n), lambda m: stats.gamma(3, scale=m / 3)),
    "lognormal": (lambda n, m: lognormal(m, 2 * m, n), lambda m: stats.lognorm(math.sqrt(math.log(5)), scale=m / 5**0.5)),
    "weibull": (lambda n, m: weibull(0.5, m, n), lambda m: stats.weibull_min(0.5, scale=m / 2)),
}


@pytest.mark.parametrize(
    "numbers, mean",
    [(n, m) for n in (1, 2, 3, 20, 1_000) for m in (0.4, 1, 7.3, 500, 123_456.789)] + [(MOST_NUMBERS, 500)],
)
@pytest.mark.parametrize("name", MADE)
def test_the_mean_is_kept_within_half_a_tick_by_the_numbers(name, numbers, mean):
    table = MADE[name][0](numbers, mean)
    assert len(table) == numbers and list(table) == sorted(table)
    assert abs(float(table.mean) - mean) <= 0.5 / numbers + 1e-9 * mean


@pytest.mark.parametrize("name", MADE)
def test_each_number_lies_within_its_share(name):
    mean, numbers = 1e6, 1_000
    make, dist = MADE[name]
    table = np.array(make(numbers, mean))
    edges = dist(mean).ppf(np.linspace(0, 1, numbers + 1))
    assert np.all(table >= np.floor(edges[:-1]) - 1) and np.all(table <= np.ceil(edges[1:]) + 1)


def test_exponential_shares_by_the_closed_form():
    numbers, mean = 1_000, 1e9
    edges = np.linspace(1, 0, numbers + 1)
    upto = edges - np.where(edges > 0, edges * np.log(np.maximum(edges, 1e-300)), 0)  # of x with P(X > x) = edge
    expected = mean * numbers * -np.diff(upto)
    assert np.allclose(exponential(mean, numbers), expected, rtol=1e-9, atol=1)


def test_lognormal_shares_by_the_closed_form():
    numbers, mean = 1_000, 1e9
    spread = math.sqrt(math.log(2))
    z = stats.norm.ppf(np.linspace(0, 1, numbers + 1))
    expected = mean * numbers * np.diff(stats.norm.cdf(z - spread))
    assert np.allclose(lognormal(mean, mean, numbers), expected, rtol=1e-7, atol=1)


# What the module's page says that tables leave out: the variance in percent, the longest time in means, and the
# percentage of the distribution beyond it.
@pytest.mark.parametrize(
    "name, numbers, variance, longest, beyond",
    [
        ("exponential", 20, -5.38, 4.0, 1.8),
        ("exponential", 1_000, -0.11, 7.9, 0.037),
        ("lognormal", 20, -39.54, 7.1, 1.5),
        ("lognormal", 1_000, -7.01, 34.3, 0.031),
        ("weibull", 20, -26.33, 8.5, 1.6),
        ("weibull", 1_000, -1.66, 31.8, 0.035),
    ],
)
def test_what_a_table_leaves_out_is_what_the_page_says(name, numbers, variance, longest, beyond):
    make, dist = MADE[name]
    table, true = make(numbers, 1_000), dist(1_000)
    assert 100 * (float(table.variance) / true.var() - 1) == pytest.approx(variance, abs=0.01)
    assert table[-1] / 1_000 == pytest.approx(longest, abs=0.06)
    assert 100 * true.sf(table[-1]) == pytest.approx(beyond, rel=0.05)
    for figure in (f"{variance:.2f} %", f"{longest:.1f} means", f"{beyond} %"):
        assert figure in distributions.__doc__


def test_more_numbers_come_nearer():
    errors = [1 - float(exponential(1e5, n).variance) / 1e10 for n in (10, 100, 1_000, 10_000)]
    assert all(0 < later < earlier / 5 for earlier, later in zip(errors, errors[1:]))


def test_scipy_distributions_continuous_and_discrete():
    assert table_of(stats.expon(scale=500)) == exponential(500)
    assert table_of(stats.gamma(3, scale=100), 50) == erlang(3, 300, 50)
    table = table_of(stats.norm(500, 50), 200)  # it goes below 0 where no share does
    assert float(table.mean) == pytest.approx(500, abs=0.5 / 200) and table[0] > 0
    table = table_of(stats.beta(2, 3, scale=1_000), 500)
    assert float(table.mean) == pytest.approx(400, abs=1e-3) and 0 <= table[0] and table[-1] <= 1_000
    table = table_of(stats.logistic(900, 50), 100)
    assert float(table.mean) == pytest.approx(900, abs=0.5 / 100)
    table = table_of(stats.pareto(2.5, scale=300), 1_000)
    assert float(table.mean) == pytest.approx(500, abs=1e-3)
    table = table_of(stats.poisson(4), 1_000)
    assert float(table.mean) == pytest.approx(4, abs=1e-3)
    assert float(table.variance) == pytest.approx(4, rel=0.01)
    table = table_of(stats.randint(3, 7), 1_000)
    assert [table.count(value) for value in range(3, 7)] == [250] * 4
    assert table_of(stats.geom(0.25), 1).mean == 4
    table = table_of(stats.randint(0, 10**9), 1_000)  # not value by value
    assert float(table.mean) == pytest.approx(5e8 - 0.5, rel=1e-6) and table[0] == pytest.approx(5e5, rel=1e-3)
    table = table_of(stats.poisson(10**6), 1_000)
    assert float(table.mean) == pytest.approx(1e6, abs=0.01) and float(table.variance) == pytest.approx(1e6, rel=0.01)


def test_samples():
    samples = [3, 1, 4, 1, 5, 9, 2, 6]
    assert list(empirical(samples, 8)) == sorted(samples)
    assert list(empirical(samples, 4)) == [1, 3, 4, 8]  # of 1, 2.5, 4.5 and 7.5, the halves carried along
    many = empirical(np.array(samples), 1_000)
    assert abs(many.mean - Fraction(31, 8)) <= Fraction(1, 2_000)
    assert [many.count(value) for value in (1, 3, 9)] == [250, 125, 125]
    rng = np.random.default_rng(1)
    times = rng.exponential(700, 12_345)
    table = empirical(times)
    assert float(table.mean) == pytest.approx(times.mean(), abs=0.5 / 1_000)
    assert float(table.variance) == pytest.approx(times.var(), rel=0.01)


def test_tables():
    table = Table([3, 1, 2], "three")
    assert table == (1, 2, 3) and table.mean == 2 and table.variance == Fraction(2, 3)
    assert table.scv == Fraction(1, 6) and constant(0).scv == 0
    for same in (pickle.loads(pickle.dumps(table)), copy.deepcopy(table)):
        assert same == table and same.of == "three" and type(same) is Table
    assert list(Table(np.array([2, 1]))) == [1, 2] and type(Table(np.array([2]))[0]) is int
    assert table_of(table, numbers=7) is table
    assert list(constant(np.int64(7))) == [7]


def test_a_table_stands_in_a_network():
    network = Network().add("in", library.source(exponential(50, numbers=4), seed=1))
    assert '"gaps": [7, 24, 50, 119]' in network.to_json()
    assert network.check().components == 1


@pytest.mark.parametrize(
    "make, told",
    [
        (lambda: exponential(0), "mean is greater than 0"),
        (lambda: exponential(math.inf), "mean is greater than 0 and finite"),
        (lambda: exponential(5, numbers=0), "numbers is 1 to 65536, not 0"),
        (lambda: exponential(5, numbers=65_537), "numbers is 1 to 65536"),
        (lambda: exponential(5, numbers=2.0), "numbers is a whole number"),
        (lambda: exponential(1e12), "the longest time is 1099511627774 ticks"),
        (lambda: uniform(5, 3), "0 <= a <= b"),
        (lambda: uniform(-1, 3), "0 <= a <= b"),
        (lambda: erlang(0, 5), "k is a whole number from 1"),
        (lambda: erlang(1.5, 5), "k is a whole number from 1"),
        (lambda: lognormal(5, 0), "sd is greater than 0"),
        (lambda: weibull(-1, 5), "shape is greater than 0"),
        (lambda: constant(-1), "a time is not negative, and -1 is"),
        (lambda: constant(1.5), "1.5 is none"),
        (lambda: empirical([]), "there is no sample"),
        (lambda: empirical([1, -1]), "a time is not negative"),
        (lambda: empirical([1, math.nan]), "a sample is not finite"),
        (lambda: table_of(stats.pareto(0.9)), "it has no finite mean"),
        (lambda: table_of(stats.cauchy()), "it has no finite mean"),
        (lambda: table_of(stats.norm(0, 5)), "a time is not negative"),
        (lambda: table_of(stats.norm), "is no distribution"),
        (lambda: table_of(5), "is no distribution"),
        (lambda: table_of([]), "a table has 1 to 65536 numbers, not 0"),
        (lambda: Table([1.5]), "whole numbers of ticks, and 1.5 is none"),
        (lambda: Table([True]), "whole numbers of ticks, and True is none"),
    ],
)
def test_what_is_no_distribution_of_times_is_refused(make, told):
    with pytest.raises((ValueError, TypeError)) as caught:
        make()
    assert told in str(caught.value)
