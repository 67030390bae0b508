"""Runs: figures, tables, courses and traces, held against one another and against the program's own texts."""

from __future__ import annotations

import gc
import json
import pickle
import subprocess
from decimal import ROUND_HALF_UP, Decimal
from fractions import Fraction
from itertools import groupby

import numpy as np
import pandas as pd
import pytest
from common import TOP, examples, network, own_programs, short_run

import twarp
from twarp import Item, LimitFault, Network, Record, simulate
from twarp.tables import KINDS

RUNS = [(name, min(until, 300)) for name, until in examples()]
WHOLE = [(name, until) for name, until in RUNS if name != "relays-at-the-limit.json"]


def run_of(name: str, until: int, **options: object) -> twarp.Run:
    return simulate(network(name), until, on_fault="keep", **options)  # type: ignore[arg-type]


def program(*words: str) -> str:
    called = subprocess.run([twarp.program.find(), *words], stdout=subprocess.PIPE, stderr=subprocess.PIPE, check=False)
    return called.stdout.decode()


@pytest.mark.parametrize("name, until", RUNS)
def test_the_trace_is_that_of_seq(name: str, until: int) -> None:
    lines = []
    for record in run_of(name, until).trace():
        bag = " ".join(f"{item.port}={item.value}" for item in record.items) or "-" * (record.kind == "out")
        words = "| " + " ".join(map(str, record.words)) if record.kind != "out" else ""
        lines.append(" ".join(filter(None, [f"{record.tick}.{record.microstep}", record.component, record.kind, bag, words])))
    told = program("seq", f"examples/{name}", "--until", str(until)).splitlines()
    assert lines == [line for line in told if not line.startswith("fault: ")]
    assert lines


@pytest.mark.parametrize("name, until", RUNS)
@pytest.mark.parametrize("workers", [1, 2, "auto"])
def test_workers_change_nothing(name: str, until: int, workers: object) -> None:
    run, alone = run_of(name, until, workers=workers), run_of(name, until)
    assert list(run.trace()) == list(alone.trace())
    assert run.table().equals(alone.table()) and run.changes().equals(alone.changes())
    assert run.stats().figures.equals(alone.stats().figures) and repr(run.fault) == repr(alone.fault)


@pytest.mark.parametrize("name, until", RUNS)
def test_the_frames_are_the_trace(name: str, until: int) -> None:
    run = run_of(name, until)
    records = list(run.trace())
    heads = [(record.tick, record.microstep, record.component, record.kind) for record in records]
    table, items, words = run.table(), run.items(), run.words()
    keys = ["tick", "microstep", "component", "kind"]
    assert list(table[keys].itertuples(index=False, name=None)) == heads
    assert table["items"].tolist() == [" ".join(f"{i.port}={i.value}" for i in record.items) for record in records]
    assert table["words"].tolist() == [" ".join(map(str, record.words)) for record in records]
    assert list(items.iloc[:, :6].itertuples(index=False, name=None)) == [
        (*head, *item) for head, record in zip(heads, records) for item in record.items
    ]
    assert list(items.columns[6:]) == [name for name, _ in json.loads(run_of(name, until)._network).get("fields", [])]
    assert list(words.itertuples(index=False, name=None)) == [
        (*head, place, number) for head, record in zip(heads, records) for place, number in enumerate(record.words)
    ]
    for frame in (table, items, words):
        assert list(frame["component"].cat.categories) == list(network(name).names)
        assert list(frame["kind"].cat.categories) == list(KINDS)
        assert frame["tick"].dtype == frame["microstep"].dtype == np.int64
    assert items["port"].dtype == items["value"].dtype == words["place"].dtype == np.int64
    assert words["number"].dtype == (np.uint64 if "hops" in name else np.int64)


def test_fields_are_columns_of_items() -> None:
    folder = TOP / "tests" / "program"
    run = simulate(Network.load(folder / "machine-fields" / "network.json"), 12)
    items = run.items()
    wanted = (folder / "items-with-fields" / "stdout").read_text()
    assert items.to_csv(index=False, lineterminator="\n") == wanted
    assert set(items.dtypes[["port", "value", "source", "size", "sent"]]) == {np.dtype("int64")}
    assert run.items(start=5, only="t").columns.tolist() == items.columns.tolist()
    one = Network().fields(tick=3, component=60).add("t", "tally").input(1, "t", 13)
    named = simulate(one, 3).items()
    assert named.columns.tolist() == ["tick", "microstep", "component", "kind", "port", "value", "tick.1", "component.1"]
    assert named[["tick", "component", "tick.1", "component.1"]].values.tolist() == [[1, "t", 5, 1]]
    assert simulate(one, 0).items().shape == (0, 8)


def test_words_of_hops_among_others() -> None:
    mixed = Network().add("h", "hop", seed=1, ports=1, spread=3).add("t", "tally").couple("h", "t")
    mixed.input(1, "t", -7)
    words = simulate(mixed, 50).words()
    assert words["number"].dtype == object and set(map(type, words["number"])) == {int}
    assert words["number"].min() == -7 and words["number"].max() >= 2**63
    records = list(simulate(mixed, 50).trace())
    assert words["number"].tolist() == [number for record in records for number in record.words]
    assert simulate(Network().add("h", "hop", seed=1, ports=1, spread=3), 0).words()["number"].dtype == np.uint64


def test_the_greatest_numbers() -> None:
    tally = Network().add("t", "tally").input(1, "t", -(2**63)).input(2, "t", 2**63 - 1, 15)
    run = simulate(tally, 3)
    assert run.items()["value"].tolist() == [-(2**63), 2**63 - 1]
    assert run.words()["number"].tolist() == [1, -(2**63), -(2**63), 2, -1, 2**63 - 1]
    figures = run.stats().figures
    assert figures.loc[("t", "last"), ["least", "greatest"]].tolist() == [-(2**63), 2**63 - 1]
    assert figures.loc[("t", "last"), "mean_exact"] == Fraction(-1, 3)
    far = simulate(Network().add("t", "tally").input(1_099_511_627_773, "t", 1), 1_099_511_627_774)
    assert far.table()["tick"].tolist() == [1_099_511_627_773]


def test_stats_from_a_tick_on() -> None:
    run = simulate(network("gen-tally.json"), 5)
    stats = run.stats(start=3)
    assert (stats.raw["from"], stats.records, run.stats().records) == (3, 3, 6)
    assert stats.figures.loc[("t", "sum"), ["least", "greatest", "last", "mean"]].tolist() == [5, 10, 10, 7.5]
    late = run.stats(start=7)
    assert late.records == 0 and late.figures.loc[("t", "sum"), ["least", "last", "mean"]].tolist() == [10, 10, 10]
    with pytest.raises(TypeError, match="start is '3'"):
        run.stats(start="3")  # type: ignore[arg-type]
    with pytest.raises(twarp.RequestError, match="23 BadLine"):
        run.stats(start=-1)


@pytest.mark.parametrize("until", [0, 1])
def test_runs_without_records(until: int) -> None:
    for one in (Network(), Network().add("g", "gen", period=2, value=5)):
        run = simulate(one, until)
        for frame, columns in ((run.table(), 6), (run.items(), 6), (run.words(), 6)):
            assert frame.shape == (0, columns)
            assert frame["tick"].dtype == np.int64 and frame["kind"].dtype == "category"
        assert list(run.trace()) == [] and run.fault is None
        assert len(run.stats().components) == len(run.stats().figures) == len(one.names)
        assert run.stats().components["int"].dtype == np.int64


@pytest.mark.parametrize("name, until", RUNS)
def test_stats_are_those_of_the_program(name: str, until: int) -> None:
    stats = run_of(name, until).stats()
    text = program("stats", f"examples/{name}", "--until", str(until))
    head, components, figures, *_ = text.rstrip("\n").split("\n\n")
    assert head == (
        f"until {until}  components {len(stats.components)}  records {stats.records}  microsteps {stats.microsteps}"
    )
    rows = [line.split() for line in components.splitlines()[1:]]
    assert [list(map(str, row)) for row in stats.components.reset_index().values] == rows
    told = []
    for (component, figure), row in stats.figures.iterrows():
        assert row["mean"] == float(row["mean_exact"]) and row["busy"] == float(row["busy_exact"])
        numbers = [str(row["least"]), str(row["greatest"]), str(row["last"])]
        numbers += [three(row["mean_exact"]), three(row["busy_exact"])]
        told.append([component, *figure.split(), *numbers])
    assert told == [line.split() for line in figures.splitlines()[1:]]


def three(share: Fraction) -> str:
    """Three decimals, a half rounded up, towards the greater."""
    thousandths = (2000 * share.numerator + share.denominator) // (2 * share.denominator)
    return str(Decimal(thousandths).scaleb(-3).quantize(Decimal("0.001"), ROUND_HALF_UP))


@pytest.mark.parametrize("name, until", RUNS)
def test_courses_come_to_the_figures(name: str, until: int) -> None:
    run = run_of(name, until)
    end = run.fault.tick if run.fault else until
    for (component, figure), row in run.stats().figures.iterrows():
        course = run.course(component, figure)
        assert course.index.is_unique and course.index.is_monotonic_increasing
        assert course.index[0] == 0 and course.index[-1] == end and course.index.name == "tick"
        assert course.name == figure and course.dtype == course.index.dtype == np.int64
        stood = np.diff(course.index)
        values = course.to_numpy()[:-1]
        assert Fraction(int((values * stood).sum()), end) == row["mean_exact"]
        assert Fraction(int(stood[values != 0].sum()), end) == row["busy_exact"]
        assert course.iloc[-1] == row["last"]


def test_courses_of_words_of_all_kinds() -> None:
    machine = {
        "name": "m",
        "registers": {"a": 3, "b": [4, 5]},
        "queues": {"q": 3, "r": [2, 2]},
        "external": ["a += value", "b[1] = value", "push q value", "push r[1] value", "if value == 9 { pop q; pop q }"],
        "words": ["a", "b", "length ( q )", " r [ 1 ] # one", "q"],
    }
    one = Network().use(machine).add("m", "m").add("n", "m")
    one.input(2, "m", 1).input(2, "m", 2).input(5, "m", 9).input(6, "m", 1)
    run = simulate(one, 8)
    assert [figure for _, figure in run.stats().figures.index[:5]] == ["a", "b[0]", "b[1]", "length ( q )", "r [ 1 ] # one + q"]
    assert run.course("m", "a").to_dict() == {0: 3, 2: 6, 5: 15, 6: 16, 8: 16}
    assert run.course("m", "b[1]").to_dict() == {0: 5, 2: 2, 5: 9, 6: 1, 8: 1}
    assert run.course("m", "r [ 1 ] # one + q").to_dict() == {0: 0, 2: 4, 5: 3, 6: 4, 8: 4}
    assert run.course("n", "a").to_dict() == {0: 3, 8: 3}
    only = {**machine, "name": "only", "words": ["q"]}
    run = simulate(Network().use(only).add("o", "only").input(2, "o", 1).input(5, "o", 9), 8)
    assert run.course("o", "q").to_dict() == {0: 0, 2: 1, 5: 0, 8: 0}


def test_a_course_at_the_ends() -> None:
    queue = Network().add("q", "queue", service=3).input(0, "q", 7).input(7, "q", 8)
    assert simulate(queue, 0).course("q", "jobs").to_dict() == {0: 0}
    assert simulate(queue, 1).course("q", "jobs").to_dict() == {0: 1, 1: 1}
    assert simulate(queue, 8).course("q", "jobs").to_dict() == {0: 1, 3: 0, 7: 1, 8: 1}
    for component, figure in (("r", "jobs"), ("q", "held"), ("q", "")):
        with pytest.raises(twarp.RequestError, match="15 NoSuch") as raised:
            simulate(queue, 8).course(component, figure)
        assert raised.value.number == 15


def test_a_course_of_many_records() -> None:
    run = simulate(Network().add("g", "gen", period=1, value=1).add("t", "tally").couple("g", "t"), 150_000)
    course = run.course("t", "count")
    assert (course == course.index.where(course.index < 150_000, 149_999)).all()


def test_a_run_is_lazy_and_of_the_network_as_it_was() -> None:
    wrong = simulate(Network().add("q", "quue"), 5)
    assert repr(wrong) == "Run(1 components, until=5)"
    with pytest.raises(twarp.NetworkError):
        wrong.stats()
    one = Network().add("g", "gen", period=2, value=5)
    run = simulate(one, 5)
    one.add("t", "tally")
    assert len(run.stats().components) == 1
    assert run.stats() is run.stats()
    again = pickle.loads(pickle.dumps(run))
    pd.testing.assert_frame_equal(again.table(), run.table())


def test_arguments_of_another_kind() -> None:
    one = Network()
    for until in (2.0, "5", None, True, Fraction(5)):
        with pytest.raises(TypeError, match="until"):
            simulate(one, until)  # type: ignore[arg-type]
    for workers in (2.0, "many", True):
        with pytest.raises(TypeError, match="workers"):
            simulate(one, 5, workers)  # type: ignore[arg-type]
    with pytest.raises(TypeError, match="Network"):
        simulate("examples/pool.json", 5)  # type: ignore[arg-type]
    with pytest.raises(ValueError, match="on_fault"):
        simulate(one, 5, on_fault="ignore")  # type: ignore[arg-type]
    assert simulate(one, np.int64(5), np.int8(2)).until == 5


@pytest.mark.parametrize("until", [-1, 1_099_511_627_775, 10**30])
def test_end_ticks_out_of_range(until: int) -> None:
    run = simulate(Network().add("t", "tally"), until)
    for call in (run.stats, run.table, run.words, lambda: list(run.trace()), run.picture, lambda: run.fault):
        with pytest.raises(twarp.RequestError, match=f"23 BadLine: [a-z]+ --until {until}"):
            call()


@pytest.mark.parametrize("workers", [0, 65, -1])
def test_workers_out_of_range(workers: int) -> None:
    with pytest.raises(twarp.RequestError, match=f"23 BadLine: run --workers {workers} --until 5"):
        next(simulate(Network(), 5, workers).trace())
    with pytest.raises(twarp.RequestError, match="23 BadLine: stats"):
        simulate(Network(), 5, workers).stats()


RELAYS = Network(3).add("a", "relay", delay=0).add("b", "relay", delay=0).couple("a", "b").couple("b", "a").input(3, "a", 1)


def test_a_limit_is_raised_with_what_there_is() -> None:
    run = simulate(RELAYS, 5)
    kept = simulate(RELAYS, 5, on_fault="keep")
    for ask, length in (("table", 8), ("items", 6), ("words", 8)):
        with pytest.raises(LimitFault) as raised:
            getattr(run, ask)()
        told = raised.value
        assert (told.component, told.stamp, told.limit) == ("b", (3, 3), "microstep")
        assert str(told) == "microstep limit: b at 3.3"
        pd.testing.assert_frame_equal(told.partial, getattr(kept, ask)())
        assert (ask, len(told.partial)) == (ask, length)
        assert str(kept.fault) == str(run.fault) == str(told)
        again = pickle.loads(pickle.dumps(told))
        assert again.stamp == (3, 3) and len(again.partial) == length
    with pytest.raises(LimitFault) as raised:
        run.stats()
    assert raised.value.partial.records == 8 and raised.value.partial.fault.stamp == (3, 3)
    assert kept.stats().fault.stamp == (3, 3)
    with pytest.raises(LimitFault) as raised:
        run.course("b", "held")
    assert raised.value.partial.to_dict() == {0: 0, 3: 0}
    assert kept.course("a", "held").to_dict() == {0: 0, 3: 1}


@pytest.mark.parametrize("workers", [None, 2, "auto"])
def test_a_trace_ends_with_its_limit(workers: object) -> None:
    seen = []
    with pytest.raises(LimitFault, match="microstep limit: b at 3.3"):
        for record in simulate(RELAYS, 5, workers).trace():  # type: ignore[arg-type]
            seen.append(record)
    kept = simulate(RELAYS, 5, workers, on_fault="keep")  # type: ignore[arg-type]
    assert list(kept.trace()) == seen and len(seen) == 8
    assert kept.fault is not None and kept.fault.stamp == (3, 3)


def test_the_fault_is_found_without_another_question() -> None:
    for on_fault in ("raise", "keep"):
        fault = simulate(RELAYS, 5, on_fault=on_fault).fault  # type: ignore[arg-type]
        assert fault is not None and fault.stamp == (3, 3)
    assert short_run().fault is None


def test_what_a_notebook_shows_of_figures() -> None:
    shown = simulate(RELAYS, 5, on_fault="keep").stats()._repr_html_()
    assert shown.startswith("<p>until=5, records=8, microsteps=4, fault=microstep limit: b at 3.3</p>\n<table")
    assert shown.count("<table") == 2 and "held" in shown and "exact" not in shown
    assert "<table" in simulate(Network(), 5).stats()._repr_html_()


def test_the_tick_limit() -> None:
    late = Network().add("q", "queue", service=1_099_511_627_774).input(3, "q", 1)
    with pytest.raises(LimitFault, match="tick limit: q at 3.0") as raised:
        simulate(late, 5).table()
    assert raised.value.limit == "tick"


def test_records_are_named() -> None:
    records = list(short_run().trace())
    assert records[-1] == Record(4, 0, "t", "ext", (Item(0, 5),), (2, 10, 5))
    assert records[0].words == () and records[1].items == ()
    rounds = groupby(records, key=lambda record: (record.tick, record.microstep))
    assert [stamp for stamp, _ in rounds] == [(2, 0), (4, 0)]


def test_a_parameter_of_any_name() -> None:
    machine = {"name": "m", "parameters": ["self", "class"], "words": ["self", "class"]}
    one = Network().use(machine).add(name="m", model="m", **{"self": 3, "class": 4})
    assert simulate(one, 1).stats().figures["last"].tolist() == [3, 4]


def test_names_that_pandas_takes_for_no_value() -> None:
    one = Network().add("NA", "gen", period=2, value=5).add("nan", "tally").add("null", "tally").add("1", "tally")
    one.couple("NA", "nan").couple("NA", "null").couple("NA", "1")
    frame = simulate(one, 3).table()
    assert frame["component"].tolist() == ["NA", "NA", "nan", "null", "1"]
    assert frame["items"].tolist() == ["0=5", "", "0=5", "0=5", "0=5"]
    assert simulate(one, 3).items()["component"].isna().sum() == 0


def test_an_iterator_that_is_dropped_ends_the_program() -> None:
    run = simulate(network("sixty-four-hops.json"), 10**8)
    for drop in ("del", "close", "break"):
        trace = run.trace()
        assert own_programs() == []
        next(trace)
        assert len(own_programs()) == 1
        if drop == "close":
            trace.close()
        elif drop == "break":
            for _ in trace:
                break
        del trace
        gc.collect()
        assert own_programs() == []


def test_two_iterators_side_by_side() -> None:
    run = simulate(network("pool.json"), 40)
    same = [one == other for one, other in zip(run.trace(), run.trace())]
    assert same == [True] * run.stats().records and own_programs() == []


@pytest.mark.parametrize("name, until", RUNS)
def test_changes_are_the_courses(name: str, until: int) -> None:
    run = run_of(name, until)
    changes = run.changes()
    figures = run.stats().figures
    assert list(changes.columns) == ["tick", "microstep", "component", "figure", "value"]
    last = changes.groupby(["component", "figure"], observed=True)["value"].last()
    for component, figure in figures.index:
        assert int(last[component, figure]) == int(figures.loc[(component, figure), "last"])
    assert len(last) == len(figures)


def test_what_is_shown_from_a_tick_on() -> None:
    net = Network().add("g", "gen", period=2, value=5).add("t", "tally").couple("g", "t")
    run = simulate(net, 7)
    assert run.table(start=3, only="t")["tick"].tolist() == [4, 6]
    assert run.items(only=["g"])["value"].tolist() == [5, 5, 5]
    assert run.words(start=5, only=["t"])["number"].tolist() == [3, 15, 5]
    rows = run.changes(start=3, only="t")[["tick", "figure", "value"]].values.tolist()
    assert rows == [[3, "count", 1], [3, "sum", 5], [3, "last", 5], [4, "count", 2], [4, "sum", 10], [6, "count", 3], [6, "sum", 15]]
    with pytest.raises(twarp.RequestError):
        run.table(only="nobody")
    with pytest.raises(TypeError):
        run.table(start=1.5)  # type: ignore[arg-type]


def test_other_numbers() -> None:
    net = Network().add("g", "gen", period=2, value=5).add("t", "tally").couple("g", "t")
    run = simulate(net, 7, numbers={"g.value": 7, "g.period": 3})
    assert run.items(only="t")["value"].tolist() == [7, 7]
    assert [record.tick for record in run.trace()] == [3, 3, 3, 6, 6, 6]
    assert run.course("t", "sum").to_dict() == {0: 0, 3: 7, 6: 14, 7: 14}
    assert run.stats(start=4).figures.loc[("t", "sum"), "last"] == 14
    with pytest.raises(twarp.RequestError):
        simulate(net, 7, numbers={"g.speed": 1}).stats()
    with pytest.raises(TypeError):
        simulate(net, 7, numbers={"g.value": 1.5})  # type: ignore[dict-item]


def test_a_replication() -> None:
    net = Network().add("h", "hop", seed=1, ports=1, spread=3)
    first, second = (simulate(net, 50, replication=number).words()["number"].tolist() for number in (0, 2))
    assert first == simulate(net, 50).words()["number"].tolist() != second
    # the second number of SplitMix64 from 1
    assert second[0] == simulate(net, 50, numbers={"h.seed": 13757245211066428519}).words()["number"].tolist()[0]
