"""Replications, intervals, sweeps and comparisons: what is computed, and that the statistics are right."""

import math
import os
import signal
import subprocess
import sys
import textwrap
import time
import warnings
from fractions import Fraction
from pathlib import Path

import numpy as np
import pandas as pd
import pytest
from scipy import stats

import twarp
from twarp import (
    LimitFault,
    Network,
    NetworkError,
    NotPrecise,
    ProgramKilled,
    ProgramTooOld,
    SameSeed,
    Seeds,
    compare,
    experiments,
    ratio,
    replicate,
    simulate,
    summary,
    sweep,
    until_precise,
)
from twarp.distributions import exponential
from twarp.library import server, source


def desk(seeds, servers=1, service=40, gap=50):
    network = Network().add("in", source(exponential(gap, 100), seed=seeds["in"]))
    return network.add("desk", server(exponential(service, 100), seed=seeds["desk"], servers=servers)).couple("in", "desk")


def quiet(make, *numbers, **more):
    return replicate(make, *numbers, progress=False, **more)


def frame_of(values, **more):
    return pd.DataFrame({"replication": range(len(values)), "component": "c", "figure": "f", "mean": values, **more})


# Seeds.


def test_seeds_are_the_same_everywhere():
    seeds = Seeds(7, 3)
    # numpy promises that a SeedSequence gives the same numbers in all its versions
    assert [seeds["desk"], seeds["tür"], seeds[0]] == [2082584476787870263, 1015014575786711246, 306402634416163651]
    told = subprocess.run(
        [sys.executable, "-c", "import twarp; s = twarp.Seeds(7, 3); print(s['desk'], s['tür'], s[0], s[10**6])"],
        capture_output=True, text=True, check=True,
    ).stdout
    assert told.split() == [str(seeds[name]) for name in ("desk", "tür", 0, 10**6)]


def test_seeds_differ_and_are_what_a_machine_takes():
    names = ["a", "b", "ab", "", "0", 0, 1, 97, 2**40]
    found = [Seeds(seed, number)[name] for seed in (0, 1, 2**70) for number in (0, 1, 10**6) for name in names]
    assert len(set(found)) == len(found) and all(0 <= seed < 2**63 for seed in found)
    pairs = [seed for seed, _ in zip(Seeds(1, 0), range(3))]
    assert pairs == [Seeds(1, 0)[k] for k in range(3)]
    for wrong in (lambda: Seeds(-1, 0), lambda: Seeds(0, 0)[-1]):
        with pytest.raises(ValueError):
            wrong()
    for wrong in (lambda: Seeds(1.5, 0), lambda: Seeds(0, 0)[1.5]):
        with pytest.raises(TypeError):
            wrong()


def test_streams_of_a_replication_and_of_neighbours_do_not_correlate():
    def make(seeds):
        network = Network()
        for name in ("a", "b"):
            network.add(name, source(exponential(1_000, 100), seed=seeds[name]))
        return network

    n = 400
    frame = quiet(make, n, 20_000, seed=1)
    gains = frame.pivot(index="replication", columns="component", values="gain")
    bound = 4 / math.sqrt(n)
    assert abs(np.corrcoef(gains["a"], gains["b"])[0, 1]) < bound
    for name in ("a", "b"):
        assert abs(np.corrcoef(gains[name][1:], gains[name][:-1])[0, 1]) < bound
        # twenty arrivals in the mean, with the spread of Poisson
        assert abs(gains[name].mean() - 20) < 4 * math.sqrt(20 / n)
        assert 0.75 < gains[name].var() / 20 < 1.3


# Replications.


def test_a_frame_tells_what_single_runs_tell():
    frame = quiet(desk, 3, 5_000, seed=2)
    assert list(frame.columns) == [
        "replication", "component", "figure", "mean", "busy", "last", "gain", "least", "greatest"
    ]
    assert [str(kind) for kind in frame.dtypes] == [
        "int64", "object", "object", "float64", "float64", "int64", "int64", "Int64", "Int64"
    ]
    for number in range(3):
        figures = simulate(desk(Seeds(2, number)), 5_000).stats().figures
        rows = frame[frame["replication"] == number].set_index(["component", "figure"])
        assert list(rows.index) == list(figures.index)
        for column in ("mean", "busy", "last", "least", "greatest"):
            assert rows[column].tolist() == figures[column].tolist(), column
        assert rows["gain"].tolist() == rows["last"].tolist()


def test_a_warm_up_is_left_out_exactly():
    frame = quiet(desk, 2, 5_000, warmup=1_234, seed=2)
    for number in range(2):
        run = simulate(desk(Seeds(2, number)), 5_000)
        for component, figure in (("desk", "waiting"), ("desk", "waited"), ("in", "made")):
            course = run.course(component, figure)
            value, total, busy, at = 0, 0, 0, 1_234
            before = course[course.index < 1_234]
            start = value = int(before.iloc[-1]) if len(before) else 0
            for tick, now in course[course.index >= 1_234].items():
                total += value * (tick - at)
                busy += (value != 0) * (tick - at)
                value, at = int(now), tick
            total += value * (5_000 - at)
            busy += (value != 0) * (5_000 - at)
            row = frame[(frame["replication"] == number) & (frame["component"] == component)]
            row = row[row["figure"] == figure].iloc[0]
            ticks = 5_000 - 1_234
            assert row["mean"] == float(Fraction(total, ticks)) and row["busy"] == busy / ticks
            assert row["gain"] == value - start and row["last"] == value
    assert frame["least"].isna().all() and frame["greatest"].isna().all()


def test_the_same_frame_whatever_the_number_of_processors(monkeypatch):
    frames = []
    for many in (1, 2, 7):
        monkeypatch.setattr(experiments, "processors", lambda: many)
        frames.append(quiet(desk, 9, 3_000, warmup=100, seed=5))
    assert frames[0].equals(frames[1]) and frames[0].equals(frames[2])
    assert frames[0].to_csv() == frames[1].to_csv() == frames[2].to_csv()
    assert not frames[0].equals(quiet(desk, 9, 3_000, warmup=100, seed=6))


def test_more_replications_begin_with_the_same_ones():
    few, more = quiet(desk, 3, 3_000), quiet(desk, 5, 3_000)
    assert few.equals(more[more["replication"] < 3])


def test_networks_are_made_as_they_are_needed(monkeypatch):
    monkeypatch.setattr(experiments, "processors", lambda: 2)
    made = []
    ended = []
    measure = experiments._measure

    def make(seeds):
        made.append(seeds.replication)
        assert len(made) - len(ended) <= 6
        return desk(seeds)

    def counted(*words):
        rows = measure(*words)
        ended.append(1)
        return rows

    monkeypatch.setattr(experiments, "_measure", counted)
    quiet(make, 20, 2_000)
    assert made == list(range(20))


def test_figures_of_one_name_stay_apart():
    twice = {"name": "twice", "registers": {"a": 0}, "external": "a += value", "words": ["a", "a + 1", "a"]}
    network = Network().use(twice).add("t", "twice").input(2, "t", 5)
    for warmup in (0, 3):
        frame = quiet(lambda seeds: network, 2, 10, warmup=warmup)
        assert frame["figure"].tolist() == ["a", "a + 1", "a"] * 2 and frame["last"].tolist() == [5, 6, 5] * 2


def test_numbers_beyond_64_bits_keep_their_value():
    network = Network().add("g", "gen", period=1, value=2**62).add("t", "tally").couple("g", "t")
    frame = quiet(lambda seeds: network, 1, 6)
    figures = simulate(network, 6).stats().raw["components"][1]["figures"]
    assert frame[frame["component"] == "t"]["last"].tolist() == [figure["last"] for figure in figures]


@pytest.mark.parametrize(
    "words, kind, told",
    [
        ({"n": 0}, ValueError, "n is 1 or more, not 0"),
        ({"n": 2.5}, TypeError, "n is a whole number"),
        ({"until": 0}, ValueError, "until is 1 or more"),
        ({"warmup": 1_000}, ValueError, "warmup is before until, not 1000 and 1000"),
        ({"warmup": -1}, ValueError, "warmup is 0 or more"),
        ({"seed": -1}, ValueError, "seed is 0 or more"),
        ({"make": lambda seeds: "network"}, TypeError, "make gives a Network, not 'network'"),
    ],
)
def test_what_cannot_be_replicated_is_told(words, kind, told):
    with pytest.raises(kind) as caught:
        replicate(**{"make": desk, "n": 2, "until": 1_000, "progress": False, **words})
    assert told in str(caught.value)


def test_seeds_that_do_not_change_are_told():
    def forgetful(seeds):
        line = Network().add("desk", server(exponential(40, 100), seed=7)).add("out", "tally").couple("", "desk")
        network = Network().add("line", line).add("in", source(exponential(50, 100), seed=seeds["in"]))
        return network.add("h", "hop", seed=3, ports=1, spread=9).couple("in", "line")

    with pytest.warns(SameSeed, match="not independent: h, line.desk; take it from") as told:
        quiet(forgetful, 3, 1_000)
    assert len(told) == 1 and told[0].filename == __file__
    with pytest.warns(SameSeed) as told:
        until_precise(forgetful, ("in", "made"), 0.01, until=500, least=3, most=9, step=3, progress=False)
    assert len([one for one in told if one.category is SameSeed]) == 1
    with pytest.warns(SameSeed):
        sweep(lambda seeds, a: forgetful(seeds), {"a": [1, 2]}, 2, until=500, progress=False)
    with warnings.catch_warnings():
        warnings.simplefilter("error")
        quiet(desk, 3, 1_000)
        quiet(forgetful, 1, 1_000)


def test_what_a_run_raises_is_raised(monkeypatch):
    with pytest.raises(NetworkError):
        quiet(lambda seeds: desk(seeds).couple("desk", "nobody"), 5, 1_000)

    def endless(seeds):
        network = Network(micro_limit=4).add("a", "relay", delay=0).add("b", "relay", delay=0)
        return network.couple("a", "b").couple("b", "a").input(3, "a", 1)

    for warmup in (0, 2, 10):
        with pytest.raises(LimitFault) as caught:
            quiet(endless, 5, 1_000, warmup=warmup)
        assert caught.value.stamp[0] == 3

    def broken(seeds):
        raise RuntimeError("no network today")

    with pytest.raises(RuntimeError, match="no network today"):
        quiet(broken, 5, 1_000)


def test_an_old_program_is_told(tmp_path, monkeypatch):
    old = tmp_path / "old"
    answer = '{"until":5,"records":0,"microsteps":0,"components":[{"name":"g","figures":[{"name":"count","last":2}]}]}'
    old.write_text(f"#!/bin/sh\ncat >/dev/null\necho '{answer}'\n")
    old.chmod(0o755)
    monkeypatch.setenv("TWARP", str(old))
    with pytest.raises(ProgramTooOld):
        quiet(desk, 1, 5)


def test_a_program_that_is_killed_ends_the_others(tmp_path, monkeypatch):
    deadly = tmp_path / "deadly"
    deadly.write_text('#!/bin/sh\nif mkdir "$0.lock" 2>/dev/null; then kill -9 $$; fi\nexec sleep 60\n')
    deadly.chmod(0o755)
    monkeypatch.setenv("TWARP", str(deadly))
    monkeypatch.setattr(experiments, "processors", lambda: 3)
    begun = time.monotonic()
    with pytest.raises(ProgramKilled) as caught:
        quiet(desk, 10, 1_000)
    assert caught.value.signal == 9 and time.monotonic() - begun < 20


def children_of(pid):
    found = []
    for entry in Path("/proc").iterdir():
        if entry.name.isdigit():
            try:
                stat = (entry / "stat").read_text()
            except OSError:
                continue
            if int(stat.rpartition(")")[2].split()[1]) == pid:
                found.append(int(entry.name))
    return found


@pytest.mark.skipif(not Path("/proc/self/stat").exists(), reason="it looks at processes in /proc")
def test_ctrl_c_ends_all_programs():
    script = textwrap.dedent(
        """
        from twarp import Network, experiments, replicate
        experiments.processors = lambda: 3
        network = Network().add("g", "gen", period=1, value=1).add("t", "tally").couple("g", "t")
        try:
            replicate(lambda seeds: network, 10, until=10**12, progress=False)
        except KeyboardInterrupt:
            print("interrupted")
        """
    )
    started = subprocess.Popen([sys.executable, "-c", script], stdout=subprocess.PIPE, text=True)
    try:
        deadline = time.monotonic() + 60
        while len(children_of(started.pid)) < 3 and time.monotonic() < deadline:
            time.sleep(0.05)
        programs = children_of(started.pid)
        assert len(programs) == 3
        started.send_signal(signal.SIGINT)
        told, _ = started.communicate(timeout=30)
    finally:
        started.kill()
        started.wait()
    assert told == "interrupted\n"
    assert not any(Path(f"/proc/{pid}").exists() for pid in programs)


def test_a_bar_is_shown_to_nobody_where_there_is_no_terminal(capfd):
    replicate(desk, 2, 1_000, progress=True)
    assert capfd.readouterr().err == ""


# Statistics.


def test_a_summary_is_the_interval_of_student():
    values = np.random.default_rng(1).normal(5, 2, 12)
    row = summary(frame_of(values), 0.9).loc[("c", "f")]
    low, high = stats.t.interval(0.9, 11, loc=values.mean(), scale=stats.sem(values))
    assert row["mean"] - row["half_width"] == pytest.approx(low) and row["mean"] + row["half_width"] == pytest.approx(high)
    assert row["sd"] == pytest.approx(values.std(ddof=1)) and row["n"] == 12


def test_intervals_of_few_replications_hold_at_their_level():
    rng = np.random.default_rng(2)
    n, experiments_made = 4, 3_000
    frame = pd.concat(
        [frame_of(rng.normal(7, 3, n)).assign(figure=f"f{k}") for k in range(experiments_made)], ignore_index=True
    )
    for level in (0.8, 0.95):
        rows = summary(frame, level)
        held = ((rows["mean"] - 7).abs() <= rows["half_width"]).sum()
        low, high = stats.binom(experiments_made, level).ppf([0.0005, 0.9995])
        assert low <= held <= high


def test_summaries_of_one_and_of_equal_replications():
    row = summary(frame_of([3.0])).iloc[0]
    assert row["mean"] == 3 and math.isnan(row["half_width"]) and math.isnan(row["sd"]) and row["n"] == 1
    row = summary(frame_of([0.1] * 7)).iloc[0]
    assert (row["mean"], row["half_width"], row["sd"], row["n"]) == (0.1, 0, 0, 7)
    row = summary(frame_of([1.0, math.nan, 2.0])).iloc[0]
    assert math.isnan(row["mean"]) and math.isnan(row["half_width"])


def test_a_summary_has_a_row_for_each_figure_in_order():
    frame = quiet(desk, 4, 2_000)
    rows = summary(frame)
    assert list(rows.index.names) == ["component", "figure"]
    assert list(rows.index) == list(zip(frame["component"], frame["figure"]))[: len(frame) // 4]
    assert summary(frame, value="greatest").loc[("desk", "working"), "mean"] == 1
    for wrong in (0, 1, 1.5, math.nan):
        with pytest.raises(ValueError, match="confidence is between 0 and 1"):
            summary(frame, wrong)
    with pytest.raises(ValueError, match="no column 'men'"):
        summary(frame, value="men")
    with pytest.raises(ValueError, match="no column 'replication'"):
        summary(rows)


def test_a_ratio_is_of_each_replication():
    frame = quiet(desk, 4, 20_000, warmup=1_000)
    waits = ratio(frame, "desk", "waited", "starts")
    gains = frame[frame["component"] == "desk"].pivot(index="replication", columns="figure", values="gain")
    assert waits["mean"].tolist() == (gains["waited"] / gains["starts"]).tolist()
    assert list(waits.columns) == ["replication", "component", "figure", "mean"]
    assert summary(waits).loc[("desk", "waited / starts"), "n"] == 4
    named = ratio(frame, "desk", "waited", "starts", name="wait")
    assert set(named["figure"]) == {"wait"}
    assert pd.concat([frame, named]).groupby("figure").size()["wait"] == 4
    none = ratio(quiet(lambda seeds: desk(seeds, gap=10**6), 2, 100), "desk", "waited", "starts")
    assert none["mean"].isna().all()
    with pytest.raises(ValueError, match="no figure 'wait' of a component 'desk'"):
        ratio(frame, "desk", "wait", "starts")


def test_a_comparison_is_the_paired_one_of_student():
    rng = np.random.default_rng(3)
    first = rng.normal(5, 2, 10)
    second = first + rng.normal(0.5, 0.3, 10)
    row = compare(frame_of(first), frame_of(second), 0.95).iloc[0]
    low, high = stats.t.interval(0.95, 9, loc=(second - first).mean(), scale=stats.sem(second - first))
    assert row["difference"] - row["half_width"] == pytest.approx(low)
    assert row["difference"] + row["half_width"] == pytest.approx(high)
    assert row["correlation"] == pytest.approx(np.corrcoef(first, second)[0, 1]) and row["n"] == 10
    # whatever the order of rows
    assert compare(frame_of(first)[::-1], frame_of(second)).iloc[0].tolist() == pytest.approx(row.tolist())
    equal = compare(frame_of(first), frame_of(first)).iloc[0]
    assert (equal["difference"], equal["half_width"]) == (0, 0)


def test_common_random_numbers_make_a_comparison_sharp():
    slow = quiet(desk, 12, 100_000, warmup=5_000, seed=1)
    fast = quiet(lambda seeds: desk(seeds, service=38), 12, 100_000, warmup=5_000, seed=1)
    other = quiet(lambda seeds: desk(seeds, service=38), 12, 100_000, warmup=5_000, seed=2)
    paired = compare(slow, fast).loc[("desk", "waiting")]
    assert paired["correlation"] > 0.8 and paired["difference"] + paired["half_width"] < 0
    spread = math.hypot(summary(slow).loc[("desk", "waiting"), "sd"], summary(other).loc[("desk", "waiting"), "sd"])
    assert paired["half_width"] < 0.6 * stats.t.ppf(0.975, 11) * spread / math.sqrt(12)
    # what both designs meet is the same: the arrivals do not differ at all
    assert compare(slow, fast).loc[("in", "made"), ["difference", "half_width"]].tolist() == [0, 0]
    with pytest.raises(ValueError, match="of two seeds, 1 and 2"):
        compare(slow, other)


def test_what_cannot_be_compared_is_told():
    a = frame_of([1.0, 2, 3])
    with pytest.raises(ValueError, match="different replications"):
        compare(a, frame_of([1.0, 2]))
    with pytest.raises(ValueError, match="no figure in common"):
        compare(a, a.assign(figure="g"))
    with pytest.raises(ValueError, match="different kinds"):
        compare(a, a.assign(servers=2))
    with pytest.raises(ValueError, match="twice in one replication"):
        compare(a, pd.concat([a, a]))


# Sequential replications.


def test_replications_until_an_interval_is_precise(monkeypatch):
    def make(seeds):
        return desk(seeds)

    words = dict(share=0.15, until=20_000, warmup=1_000, seed=1, least=5, step=3, progress=False)
    frame = until_precise(make, ("desk", "waiting"), **words)
    n = frame["replication"].nunique()
    assert n > 5 and (n - 5) % 3 == 0
    assert frame.equals(quiet(make, n, 20_000, warmup=1_000, seed=1))
    row = summary(frame).loc[("desk", "waiting")]
    assert row["half_width"] <= 0.15 * row["mean"]
    before = summary(frame[frame["replication"] < n - 3]).loc[("desk", "waiting")]
    assert before["half_width"] > 0.15 * before["mean"]
    monkeypatch.setattr(experiments, "processors", lambda: 5)
    assert frame.equals(until_precise(make, ("desk", "waiting"), **words))


def test_several_figures_and_ratios_until_they_are_precise():
    words = dict(share=0.2, until=20_000, seed=1, least=4, step=4, progress=False)
    both = [("desk", "waiting"), ("desk", "working")]
    assert until_precise(desk, both, **words).equals(until_precise(desk, ("desk", "waiting"), **words))
    waits = until_precise(desk, lambda frame: ratio(frame, "desk", "waited", "starts"), **words)
    row = summary(ratio(waits, "desk", "waited", "starts")).iloc[0]
    assert row["half_width"] <= 0.2 * row["mean"]


def test_a_figure_without_spread_is_precise_at_once():
    network = Network().add("g", "gen", period=2, value=5)
    frame = until_precise(lambda seeds: network, ("g", "count"), 0.01, until=100, least=2, progress=False)
    assert frame["replication"].nunique() == 2


def test_what_stays_imprecise_is_told():
    with pytest.warns(NotPrecise, match="after 7 replications"):
        frame = until_precise(
            desk, ("desk", "waiting"), 0.001, until=2_000, least=3, most=7, step=3, progress=False
        )
    assert frame["replication"].nunique() == 7
    for wrong, told in [
        ({"share": 0}, "share is above 0"),
        ({"least": 1}, "least is 2 or more"),
        ({"of": ("desk", "wait")}, "no figure 'wait' of a component 'desk'"),
        ({"confidence": 2}, "confidence is between"),
    ]:
        with pytest.raises(ValueError, match=told):
            until_precise(**{
                "make": desk, "of": ("desk", "waiting"), "share": 0.5, "until": 500, "progress": False, **wrong
            })


# Sweeps.


def test_a_sweep_has_each_point_in_order():
    frame = sweep(desk, {"servers": [1, 2], "service": [30, 40]}, 3, until=3_000, seed=4, progress=False)
    assert list(frame.columns[:4]) == ["servers", "service", "replication", "component"]
    points = frame[["servers", "service", "replication"]].drop_duplicates().values.tolist()
    assert points == [[a, b, k] for a in (1, 2) for b in (30, 40) for k in range(3)]
    single = quiet(lambda seeds: desk(seeds, servers=2, service=30), 3, 3_000, seed=4)
    part = frame[(frame["servers"] == 2) & (frame["service"] == 30)].drop(columns=["servers", "service"])
    assert part.reset_index(drop=True).equals(single)
    rows = summary(frame)
    assert list(rows.index.names) == ["servers", "service", "component", "figure"]
    assert len(rows) == 4 * 7
    listed = sweep(desk, [{"servers": 1, "service": 30}, {"servers": 2, "service": 40}], 3, until=3_000, seed=4, progress=False)
    assert listed[listed["servers"] == 2].drop(columns=["servers", "service"]).reset_index(drop=True).equals(
        frame[(frame["servers"] == 2) & (frame["service"] == 40)].drop(columns=["servers", "service"]).reset_index(drop=True)
    )


def test_points_of_a_sweep_are_compared_and_may_be_independent():
    frame = sweep(desk, {"servers": [1, 2]}, 6, until=10_000, progress=False)
    one, two = (frame[frame["servers"] == count].drop(columns="servers") for count in (1, 2))
    assert compare(one, two).loc[("desk", "waiting"), "difference"] < 0
    assert compare(one, two).loc[("in", "made"), "difference"] == 0
    apart = sweep(desk, {"servers": [1, 2]}, 6, until=10_000, progress=False, common=False)
    made = apart[apart["figure"] == "made"]
    assert made["last"].nunique() > 6 and len(made) == 12


@pytest.mark.parametrize(
    "grid, told",
    [
        ({"servers": []}, "the grid has no point"),
        ([], "the grid has no point"),
        ([{"servers": 1}, {"service": 1}], "the same parameters"),
        ({"mean": [1]}, "'mean' is a column of the frame"),
    ],
)
def test_a_grid_that_is_none_is_told(grid, told):
    with pytest.raises(ValueError, match=told):
        sweep(desk, grid, 1, until=100, progress=False)


def test_the_public_names_are_there():
    for name in ("replicate", "summary", "until_precise", "sweep", "compare", "ratio", "Seeds", "NotPrecise"):
        assert getattr(twarp, name).__doc__ and name in twarp.__all__
