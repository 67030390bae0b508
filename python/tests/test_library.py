"""The library's machines: their files, their parameters, small runs worked out by hand, and theory.

Theory is held by confidence intervals of 30 replications. In the gate a replication has 10,000 customers; with
TWARP_FULL=1 it has 100,000. Means are thousands of ticks and tables have 10,000 numbers, so what whole ticks and
tables leave out (a part in 10,000) is far below the intervals' widths. There are some fifty intervals, so each is
of 0.999 (Bonferroni: all together 0.95); how many of them hold at 0.95 is a test of its own. The seed is 1, and
was not chosen.
"""

import functools
import heapq
import json
import math
import os
import subprocess

import numpy as np
import pytest
from scipy import stats

from twarp import Network, library, ratio, replicate, simulate, summary
from twarp.distributions import constant, erlang, exponential, lognormal, table_of, uniform
from twarp.library import (
    batcher,
    breaking_machine,
    delay,
    priority_server,
    router,
    server,
    sink,
    source,
    splitter,
    store,
)

FULL = os.environ.get("TWARP_FULL") == "1"
CUSTOMERS = 100_000 if FULL else 10_000
REPLICATIONS = 30
LEVEL = 0.999
NUMBERS = 10_000
GAP = 5_000


# The files, as they serve without Python.


@pytest.mark.parametrize("name", library.names())
def test_a_file_runs_by_itself_and_by_four_workers(name):
    program, path = os.environ["TWARP"], str(library.file_of(name))
    checked = subprocess.run([program, "check", path], capture_output=True, text=True)
    assert checked.returncode == 0 and checked.stdout.startswith("ok: ")
    alone = subprocess.run([program, "seq", path, "--until", "20000"], capture_output=True)
    together = subprocess.run([program, "run", path, "--until", "20000", "--workers", "4"], capture_output=True)
    assert alone.returncode == together.returncode == 0
    assert alone.stdout == together.stdout and alone.stdout.count(b"\n") > 300


def test_files_have_the_same_machine_under_the_same_name():
    machines = {}
    for name in library.names():
        file = json.loads(library.file_of(name).read_text())
        assert file["format"] == "tw-3" and file["models"][0]["name"] == name
        for machine in file["models"]:
            assert machines.setdefault(machine["name"], machine) == machine
    assert set(machines) == set(library.names())


def test_each_machine_has_a_function_of_its_name():
    for name in library.names():
        made = getattr(library, name)
        for word in ("Ports:", "Words:", "States:", "Theory:"):
            assert word in made.__doc__, name


# Parameters.


@pytest.mark.parametrize(
    "make, told",
    [
        (lambda: server(400, seed=1, servers=0), "servers is 1 to 1024, not 0"),
        (lambda: server(400, seed=1, servers=1000, room=25), "room is 0 to 24, not 25"),
        (lambda: server(-1, seed=1), "service: constant(-1): a time is not negative"),
        (lambda: server("soon", seed=1), "service: 'soon' is no distribution"),
        (lambda: server(400, seed=1.5), "seed is a whole number, not 1.5"),
        (lambda: server(400, seed=True), "seed is a whole number, not True"),
        (lambda: server(400, seed=2**63), "seed is "),
        (lambda: source(exponential(5), seed=1, value="name"), 'value is "time" or "number"'),
        (lambda: priority_server([400, 300], seed=1), "a list of numbers is no clear answer"),
        (lambda: priority_server([exponential(9)] * 3, seed=1), "service has 3 tables, for 2 classes"),
        (lambda: priority_server([exponential(9, 8), exponential(9, 12)], seed=1), "have the same length"),
        (lambda: priority_server(exponential(9, 65_536), seed=1), "131072 numbers for all classes, at most 65536"),
        (lambda: priority_server(9, seed=1, classes=5), "classes is 1 to 4, not 5"),
        (lambda: router([], seed=1), "weights are 1 to 16, not 0"),
        (lambda: router([0, 0], seed=1), "one of them is above 0"),
        (lambda: router([1, -1], seed=1), "-1 is negative"),
        (lambda: router([math.nan], seed=1), "nan is no number"),
        (lambda: delay(5, seed=1, room=1025), "room is 1 to 1024"),
        (lambda: batcher(0), "size is 1 to 1000000, not 0"),
        (lambda: splitter(copies=65), "copies is 1 to 64, not 65"),
        (lambda: breaking_machine(5, 0, 5, seed=1), "some life is longer than 0"),
        (lambda: breaking_machine(5, 9, 5, seed=1, credits=-1), "credits is 0 to"),
        (lambda: store(low=5, high=5, seed=1), "low is below high, not 5 and 5"),
        (lambda: store(low=-5, high=-1, seed=1), "high is 0 or more"),
        (lambda: sink(width=0), "width is 1 to"),
    ],
)
def test_a_wrong_parameter_is_named(make, told):
    with pytest.raises((ValueError, TypeError)) as caught:
        make()
    assert told in str(caught.value)


def test_the_greatest_of_each_machine_is_within_the_limits():
    network = Network()
    network.add("a", server(uniform(1, 9, 65_536), seed=1, servers=512, room=512))
    network.add("a2", server(5, seed=1, servers=1_024, room=0))
    network.add("b", priority_server(5, seed=2, servers=32, classes=4, room=500))
    network.add("c", delay(5, seed=3)).add("d", batcher(1_000_000, 10**12)).add("e", splitter(64, 16))
    network.add("f", breaking_machine(5, 9, 5, seed=4, room=1_024, credits=1_024))
    network.add("g", store(low=-(10**12), high=10**12, seed=5)).add("h", sink(width=2**63 - 1))
    network.add("i", router([1] * 16, seed=6)).add("j", source(5, seed=7, most=2**63 - 1))
    assert network.check().components == 11


def test_weights_of_a_router():
    assert router([1, 0, 2], seed=1).parameters["shares"] == [0, 2, 2]
    assert router([0.1, 0.2, 0.7], seed=1).parameters["shares"] == [0, 1, 1] + [2] * 7
    table = router([1 / 3, math.pi, 1e-9], seed=1, numbers=1_000).parameters["shares"]
    total = 1 / 3 + math.pi
    assert len(table) == 1_000 and abs(table.count(0) / 1_000 - 1 / 3 / total) <= 1 / 1_000


def test_services_of_classes():
    def times(service, **more):
        parameters = priority_server(service, seed=1, **more).parameters
        return parameters["n"], parameters["times"]

    assert times(7, classes=3) == (1, [7, 7, 7])
    assert times(table_of([3, 5])) == (2, [3, 5, 3, 5])
    assert times([constant(7), table_of([3, 5])]) == (2, [7, 7, 3, 5])
    assert times([9, table_of([1, 2, 3, 4])]) == (4, [9, 9, 9, 9, 1, 2, 3, 4])


def test_a_part_is_used_in_full_or_in_one_call():
    part = server(constant(30), seed=1)
    full = Network().use(part.machine).add("desk", part.model, **part.parameters)
    assert full.to_json() == Network().add("desk", part).to_json()


# Small runs, against recursions that know nothing of machines.


def sent(run, component, port=None):
    """The ticks and values that a component sent, in order."""
    items = run.items()
    mine = items[(items["component"] == component) & (items["kind"] == "out")]
    if port is not None:
        mine = mine[mine["port"] == port]
    return list(zip(mine["tick"], mine["value"]))


def last(run, component, figure):
    return int(run.stats().figures.loc[(component, figure), "last"])


def fed(name, part, gaps, seed=5, most=400, **more):
    network = Network().add("in", source(gaps, seed=seed, most=most)).add(name, part)
    return network.couple("in", name)


@pytest.mark.parametrize("servers, room", [(1, 1_000), (3, 1_000), (3, 0), (2, 2)])
def test_a_server_of_constant_service_follows_the_recursion(servers, room):
    run = simulate(fed("desk", server(130, seed=1, servers=servers, room=room), exponential(50)), until=10**6)
    ends, line, expected, lost, waited = [], [], [], 0, 0
    for tick, value in sent(run, "in"):
        while ends and ends[0] <= tick:  # what goes leaves first
            end = heapq.heappop(ends)
            if line:
                came = line.pop(0)
                waited += end - came
                heapq.heappush(ends, end + 130)
                expected.append((end + 130, came))
        if len(ends) < servers:
            heapq.heappush(ends, tick + 130)
            expected.append((tick + 130, value))
        elif len(line) < room:
            line.append(tick)
        else:
            lost += 1
    while line:
        end, came = heapq.heappop(ends), line.pop(0)
        waited += end - came
        heapq.heappush(ends, end + 130)
        expected.append((end + 130, came))
    assert sent(run, "desk") == sorted(expected)
    assert last(run, "desk", "served") == len(expected) and last(run, "desk", "starts") == len(expected)
    assert last(run, "desk", "lost") == lost and last(run, "desk", "waited") == waited
    assert last(run, "desk", "working") == last(run, "desk", "waiting") == 0


def test_a_source_sends_after_each_gap_and_ends():
    run = simulate(Network().add("in", source(constant(7), seed=1, most=3, value="number")), until=100)
    assert sent(run, "in") == [(7, 1), (14, 2), (21, 3)]
    run = simulate(Network().add("in", source([3, 5], seed=1)), until=10_000)
    ticks = [tick for tick, value in sent(run, "in") if tick == value]
    assert set(np.diff([0, *ticks])) == {3, 5} and last(run, "in", "made") == len(ticks)


def test_a_priority_server_takes_the_most_urgent_first():
    network = Network().add("desk", priority_server(100, seed=1, classes=3, room=1))
    for tick, port, value in [(0, 2, 20), (10, 2, 21), (20, 1, 11), (30, 0, 1), (40, 0, 2), (50, 15, 22)]:
        network.input(tick, "desk", value, port)
    run = simulate(network, until=1_000)
    items = run.items()
    out = items[items["kind"] == "out"][["tick", "port", "value"]].values.tolist()
    assert out == [[100, 2, 20], [200, 0, 1], [300, 1, 11], [400, 2, 21]]
    assert [last(run, "desk", f"lost[{k}]") for k in range(3)] == [1, 0, 1]
    assert [last(run, "desk", f"waited[{k}]") for k in range(3)] == [70, 180, 290]
    assert [last(run, "desk", f"starts[{k}]") for k in range(4)] == [1, 1, 2, 0]


def test_a_delay_lets_overtake():
    network = Network().add("way", delay([10, 500], seed=3, room=3))
    for tick in range(0, 60, 20):
        network.input(tick, "way", tick)
    network.input(41, "way", 1).input(41, "way", 2).input(41, "way", 3)
    run = simulate(network, until=10_000)
    stays = [tick - value for tick, value in sent(run, "way") if value in (0, 20, 40)]
    assert set(stays) <= {10, 500}
    assert last(run, "way", "served") + last(run, "way", "lost") == 6
    assert run.stats().figures.loc[("way", "inside"), "greatest"] == 3


def test_a_batcher_sends_full_batches_and_loses_patience():
    network = Network().add("lorry", batcher(3, patience=100))
    for tick in (10, 20, 30, 40, 200, 290, 300, 305, 306, 307):
        network.input(tick, "lorry", tick)
    run = simulate(network, until=1_000)
    # at 300 one comes in the tick in which patience ends: what ends goes first, and 300 begins a new batch
    assert sent(run, "lorry") == [(30, 10), (140, 40), (300, 200), (306, 300), (407, 307)]
    assert last(run, "lorry", "batches") == 5 and last(run, "lorry", "items") == 10
    assert last(run, "lorry", "waited") == 20 + 10 + 100 + 100 + 10 + 6 + 1 + 100


def test_a_batcher_of_any_patience_counts_each_item_once():
    run = simulate(fed("lorry", batcher(4, patience=120), exponential(50), most=500), until=10**6)
    arrivals = [tick for tick, _ in sent(run, "in")]
    batches, held = [], []
    for tick in [*arrivals, 10**6]:
        if held and tick >= held[0] + 120:
            batches.append((held[0] + 120, held))
            held = []
        held = [*held, tick]
        if len(held) == 4:
            batches.append((tick, held))
            held = []
    assert sent(run, "lorry") == [(end, inside[0]) for end, inside in batches]
    assert last(run, "lorry", "items") == sum(len(inside) for _, inside in batches) == len(arrivals)
    assert last(run, "lorry", "waited") == sum(end - came for end, inside in batches for came in inside)


def test_a_splitter_sends_each_copy_on_each_port():
    network = Network().add("copier", splitter(copies=3, ports=2)).input(5, "copier", 8).input(5, "copier", 9)
    run = simulate(network, until=10)
    for port in (0, 1):
        assert sorted(sent(run, "copier", port)) == [(5, 8)] * 3 + [(5, 9)] * 3
    assert sent(run, "copier", 2) == [] and last(run, "copier", "sent") == 12


def test_a_breaking_machine_goes_on_where_it_was():
    network = Network().add("saw", breaking_machine(100, 250, 1_000, seed=1, room=2))
    for value in range(5):
        network.input(0, "saw", value)
    run = simulate(network, until=10_000)
    # 250 ticks of work, a repair of 1,000, 50 more ticks for the third part; two more find no place at tick 0
    assert sent(run, "saw", 0) == [(100, 0), (200, 1), (1_300, 2)]
    assert last(run, "saw", "lost") == 2 and last(run, "saw", "breaks") == 1
    figures = run.stats().figures
    assert figures.loc[("saw", "down"), "busy_exact"] == pytest.approx(0.1)
    assert figures.loc[("saw", "working"), "busy_exact"] == pytest.approx(0.03)


def test_a_breaking_machine_waits_for_credits_and_gives_them():
    network = Network().add("saw", breaking_machine(10, 10**9, 1, seed=1, room=5, credits=1))
    for value in range(4):
        network.input(0, "saw", value)
    network.input(100, "saw", 0, 1).input(100, "saw", 0, 1)
    run = simulate(network, until=1_000)
    assert sent(run, "saw", 0) == [(10, 0), (100, 1), (110, 2)]
    assert [tick for tick, _ in sent(run, "saw", 1)] == [0, 10, 100, 110]
    assert last(run, "saw", "blocked") == 1 and last(run, "saw", "done") == 3


def test_two_machines_with_credits_lose_nothing_and_never_overfill():
    network = fed("saw", breaking_machine(exponential(40), exponential(300), exponential(200), seed=2, room=900, credits=2),
                  exponential(60), most=500)
    network.add("press", breaking_machine(exponential(45), exponential(500), exponential(100), seed=3, room=2))
    network.couple("saw", 0, "press", 0).couple("press", 1, "saw", 1)
    run = simulate(network, until=10**6)
    assert last(run, "saw", "lost") == last(run, "press", "lost") == 0
    assert last(run, "press", "done") == 500
    assert run.stats().figures.loc[("press", "waiting"), "greatest"] == 2


def test_a_store_orders_up_to_its_level():
    network = Network().add("store", store(low=2, high=6, seed=1, sizes=3)).add("supplier", delay(50, seed=2))
    network.couple("store", "supplier").couple("supplier", 0, "store", 1)
    for tick in (10, 20, 30, 100):
        network.input(tick, "store", 0)
    run = simulate(network, until=1_000)
    assert sent(run, "store") == [(20, 6), (100, 6)]
    assert last(run, "store", "short") == 3 and last(run, "store", "wanted") == 12
    assert last(run, "store", "stock") == 6 and last(run, "store", "owed") == 0


def test_a_sink_counts_times():
    network = Network().add("out", sink(width=10)).add("sum", sink(width=10, value="number"))
    for tick, value in [(5, 0), (30, 1), (500, 20)]:
        network.input(tick, "out", value).input(tick, "sum", value)
    run = simulate(network, until=1_000)
    assert [last(run, "out", name) for name in ("count", "total", "squares")] == [3, 514, 25 + 841 + 230_400]
    assert [last(run, "out", f"bins[{k}]") for k in (0, 2, 39)] == [1, 1, 1]
    assert [last(run, "sum", name) for name in ("total", "bins[0]", "bins[2]")] == [21, 2, 1]


# Theory.


def exponentials(*means):
    return [exponential(mean, NUMBERS) for mean in means]


def queue_network(part, gap=GAP, width=2_000):
    def make(seeds):
        network = Network().add("in", source(exponential(gap, NUMBERS), seed=seeds["in"]))
        network.add("desk", part(seeds["desk"])).add("out", sink(width=width))
        return network.couple("in", "desk").couple("desk", "out")

    return make


def erlang_b(servers, load):
    blocked = 1.0
    for count in range(1, servers + 1):
        blocked = load * blocked / (count + load * blocked)
    return blocked


def line_of(servers, load):
    """Mean number in the line of M/M/c, by Erlang's C."""
    blocked = erlang_b(servers, load)
    waits = servers * blocked / (servers - load * (1 - blocked))
    return waits * load / (servers - load)


def mm1():
    make = queue_network(lambda seed: server(exponential(4_000, NUMBERS), seed=seed))
    whole = 20_000
    checks = [
        ("desk", "working", "busy", 0.8),
        ("desk", "waiting", "mean", 3.2),
        ("desk", ("waited", "starts"), "gain", 16_000),
        ("out", ("total", "count"), "gain", whole),
        ("out", ("squares", "count"), "gain", 2 * whole**2),
    ]
    for place in (0, 3, 12):
        share = math.exp(-place * 2_000 / whole) - math.exp(-(place + 1) * 2_000 / whole)
        checks.append(("out", (f"bins[{place}]", "count"), "gain", share))
    checks.append(("out", ("bins[39]", "count"), "gain", math.exp(-39 * 2_000 / whole)))
    return make, checks


def mm1k():
    make = queue_network(lambda seed: server(exponential(4_500, NUMBERS), seed=seed, room=4))
    load = 0.9
    share = [load**n * (1 - load) / (1 - load**6) for n in range(6)]
    mean = sum(n * p for n, p in enumerate(share))
    return make, [
        ("desk", "working", "busy", 1 - share[0]),
        ("desk", "waiting", "mean", mean - (1 - share[0])),
        ("desk", "lost", "rate", share[5] / GAP),
        ("out", ("total", "count"), "gain", mean * GAP / (1 - share[5])),
    ]


def mmc():
    make = queue_network(lambda seed: server(exponential(12_000, NUMBERS), seed=seed, servers=3))
    line = line_of(3, 2.4)
    return make, [
        ("desk", "working", "mean", 2.4),
        ("desk", "waiting", "mean", line),
        ("desk", ("waited", "starts"), "gain", line * GAP),
    ]


def mmcc():
    times = exponential(15_000, NUMBERS)
    make = queue_network(lambda seed: server(times, seed=seed, servers=5, room=0))
    blocked = erlang_b(5, 3)
    return make, [("desk", "lost", "rate", blocked / GAP), ("desk", "working", "mean", 3 * (1 - blocked))]


def mgcc():
    times = lognormal(15_000, 15_000, NUMBERS)  # Erlang's B holds for any service
    make = queue_network(lambda seed: server(times, seed=seed, servers=5, room=0))
    blocked = erlang_b(5, 3)
    return make, [("desk", "lost", "rate", blocked / GAP), ("desk", "working", "mean", 3 * (1 - blocked))]


def md1():
    make = queue_network(lambda seed: server(4_000, seed=seed))
    return make, [
        ("desk", "waiting", "mean", 0.8**2 / (2 * 0.2)),
        ("desk", ("waited", "starts"), "gain", 0.8 * 4_000 / (2 * 0.2)),
    ]


def mg1():
    times = lognormal(3_500, 3_500, NUMBERS)
    line = (float(times.variance) + 3_500**2) / GAP**2 / (2 * 0.3)  # Pollaczek and Khinchine, of the table
    make = queue_network(lambda seed: server(times, seed=seed))
    return make, [("desk", "waiting", "mean", line), ("desk", ("waited", "starts"), "gain", line * GAP)]


def tandem():
    gaps, first, second = exponentials(GAP, 3_500, 4_000)

    def make(seeds):
        network = Network().add("in", source(gaps, seed=seeds["in"])).add("out", sink())
        network.add("saw", server(first, seed=seeds["saw"])).add("press", server(second, seed=seeds["press"]))
        return network.couple("in", "saw").couple("saw", "press").couple("press", "out")

    return make, [
        ("saw", "waiting", "mean", 0.7**2 / 0.3),
        ("press", "waiting", "mean", 0.8**2 / 0.2),
        ("out", ("total", "count"), "gain", (0.7 / 0.3 + 0.8 / 0.2) * GAP),
    ]


def jackson():
    """Three stations: from a half go to b, three tenths to c, the rest away; b sends a quarter back to a, the rest
    to c; c sends a tenth back to b."""
    ways = {"a": [0.5, 0.3, 0.2], "b": [0.25, 0.75], "c": [0.1, 0.9]}
    moves = np.array([[0, 0.5, 0.3], [0.25, 0, 0.75], [0, 0.1, 0]])
    rates = np.linalg.solve((np.eye(3) - moves).T, [1 / GAP, 0, 0])
    servers, loads = (1, 2, 1), (0.7, 1.4, 0.6)
    times = exponentials(*(load / rate for load, rate in zip(loads, rates)))
    gaps = exponential(GAP, NUMBERS)

    def make(seeds):
        network = Network().add("in", source(gaps, seed=seeds["in"])).add("out", sink())
        for name, count, table in zip("abc", servers, times):
            network.add(name, server(table, seed=seeds[name], servers=count))
            network.add(f"to-{name}", router(ways[name], seed=seeds[f"to-{name}"])).couple(name, f"to-{name}")
        network.couple("in", "a")
        network.couple("to-a", 0, "b", 0).couple("to-a", 1, "c", 0).couple("to-a", 2, "out", 0)
        network.couple("to-b", 0, "a", 0).couple("to-b", 1, "c", 0)
        return network.couple("to-c", 0, "b", 0).couple("to-c", 1, "out", 0)

    exact = [float(table.mean) * rate for table, rate in zip(times, rates)]
    lines = [line_of(count, load) for count, load in zip(servers, exact)]
    checks = [(name, "waiting", "mean", line) for name, line in zip("abc", lines)]
    checks += [(name, "working", "mean", load) for name, load in zip("abc", exact)]
    return make, [*checks, ("out", ("total", "count"), "gain", (sum(lines) + sum(exact)) * GAP)]


def priorities():
    times = [exponential(4_000, NUMBERS), erlang(2, 3_000, NUMBERS), exponential(4_000, NUMBERS)]
    gaps = (20_000, 10_000, 20_000)

    def make(seeds):
        network = Network().add("desk", priority_server(times, seed=seeds["desk"], classes=3))
        for k, gap in enumerate(gaps):
            network.add(f"in{k}", source(exponential(gap, NUMBERS), seed=seeds[f"in{k}"]))
            network.couple(f"in{k}", 0, "desk", k)
        return network

    moments = [float(table.variance + table.mean**2) for table in times]
    rest = sum(moment / gap for moment, gap in zip(moments, gaps)) / 2
    loads = np.cumsum([0, *(float(table.mean) / gap for table, gap in zip(times, gaps))])
    checks = [("desk", "working", "mean", loads[-1])]
    for k in range(3):
        wait = rest / (1 - loads[k]) / (1 - loads[k + 1])  # Cobham
        checks.append(("desk", (f"waited[{k}]", f"starts[{k}]"), "gain", wait))
    return make, checks


def infinite():
    make = queue_network(lambda seed: delay(lognormal(15_000, 10_000, NUMBERS), seed=seed))
    return make, [("desk", "inside", "mean", 3), ("desk", "inside", "busy", 1 - math.exp(-3))]


def batches():
    make = queue_network(lambda seed: batcher(8))
    return make, [("desk", "inside", "mean", 3.5), ("desk", ("waited", "items"), "gain", 3.5 * GAP)]


def patient():
    make = queue_network(lambda seed: batcher(1_000_000, patience=12_000))
    return make, [("desk", ("items", "batches"), "gain", 1 + 12_000 / GAP)]


def failing():
    service, life, repair = 2_500, 10_000, 4_000
    make = queue_network(
        lambda seed: breaking_machine(*exponentials(service, life, repair), seed=seed, room=1_024)
    )
    slower = 1 + repair / life
    moment = 2 * service**2 * slower**2 + service / life * 2 * repair**2  # of the completion time
    line = moment / GAP**2 / (2 * (1 - service * slower / GAP))
    return make, [
        ("desk", "waiting", "mean", line),
        ("desk", "working", "mean", service / GAP),
        ("desk", "down", "mean", service / GAP * repair / life),
    ]


def blocking():
    """The saw is never without a part: each that it takes makes room for the next, by its own credits."""
    places = 3
    times = exponential(GAP, NUMBERS)

    def make(seeds):
        never = constant(10**12)
        network = Network().add("saw", breaking_machine(times, never, 1, seed=seeds["saw"], room=1, credits=places))
        network.add("press", breaking_machine(times, never, 1, seed=seeds["press"], room=places))
        network.add("again", router([1], seed=seeds["again"])).couple("saw", 1, "again", 0).couple("again", "saw")
        network.couple("saw", "press").couple("press", 1, "saw", 1)
        return network.input(0, "saw", 0)

    return make, [
        ("press", "done", "rate", (places + 2) / (places + 3) / GAP),
        ("saw", "blocked", "mean", 1 / (places + 3)),
        ("press", "working", "mean", (places + 2) / (places + 3)),
    ]


def base_stock():
    level, load = 10, 6
    lead = uniform(20_000, 40_000, NUMBERS)

    def make(seeds):
        network = Network().add("in", source(exponential(GAP, NUMBERS), seed=seeds["in"]))
        network.add("store", store(low=level - 1, high=level, seed=seeds["store"])).add("supplier", delay(lead, seed=seeds["lead"]))
        return network.couple("in", "store").couple("store", "supplier").couple("supplier", 0, "store", 1)

    number = np.arange(200)
    share = stats.poisson(load).pmf(number)
    return make, [
        ("store", "ordered", "mean", load),
        ("store", "stock", "mean", float(share @ np.maximum(level - number, 0))),
        ("store", "owed", "mean", float(share @ np.maximum(number - level, 0))),
        ("store", ("short", "wanted"), "gain", float(share[level:].sum())),
    ]


def arrivals():
    gaps = exponential(GAP, NUMBERS)
    return (lambda seeds: Network().add("in", source(gaps, seed=seeds["in"]))), [("in", "made", "rate", 1 / GAP)]


SYSTEMS = {
    system.__name__: system
    for system in (
        mm1, mm1k, mmc, mmcc, mgcc, md1, mg1, tandem, jackson, priorities, infinite, batches, patient, failing,
        blocking, base_stock, arrivals,
    )
}


@functools.lru_cache(maxsize=None)
def run_of(name):
    """The frame of a system, and its checks."""
    make, checks = SYSTEMS[name]()
    until = CUSTOMERS * GAP
    return replicate(make, REPLICATIONS, until, warmup=until // 20, seed=1, progress=False), checks


@functools.lru_cache(maxsize=None)
def interval(name, place, confidence):
    """What theory says, and the mean and half width of the interval for it."""
    frame, checks = run_of(name)
    component, figure, value, expected = checks[place]
    if isinstance(figure, tuple):
        row = summary(ratio(frame, component, *figure), confidence).iloc[0]
    else:
        column = "gain" if value == "rate" else value
        row = summary(frame, confidence, column).loc[(component, figure)]
        if value == "rate":
            row = row / (CUSTOMERS * GAP - CUSTOMERS * GAP // 20)
    return expected, row["mean"], row["half_width"]


CHECKS = [(name, place) for name in SYSTEMS for place in range(len(SYSTEMS[name]()[1]))]


@pytest.mark.parametrize("name, place", CHECKS, ids=lambda value: str(value))
def test_theory_lies_within_the_interval(name, place):
    expected, mean, half = interval(name, place, LEVEL)
    assert abs(mean - expected) <= half
    # and the interval says something
    assert half <= (0.15 if FULL else 0.35) * expected  # the widest is of one customer in fifty, the longest times


def test_of_the_intervals_at_95_percent_about_one_in_twenty_misses():
    missed = []
    for name, place in CHECKS:
        expected, mean, half = interval(name, place, 0.95)
        if abs(mean - expected) > half:
            missed.append((name, place))
    # those of one system depend on one another, so the count spreads more than a binomial one
    assert len(missed) <= 0.15 * len(CHECKS), missed


def test_the_number_of_poisson_arrivals_has_the_variance_of_poisson():
    frame, _ = run_of("arrivals")
    counts = frame["gain"].to_numpy()
    expected = CUSTOMERS * 0.95
    spread = counts.var(ddof=1) * (REPLICATIONS - 1) / expected
    low, high = stats.chi2(REPLICATIONS - 1).ppf([0.0005, 0.9995])
    assert low < spread < high


def test_a_router_sends_by_its_weights():
    network = fed("fork", router([1, 2, 3, 4], seed=9), constant(1), most=CUSTOMERS)
    figures = simulate(network, until=CUSTOMERS + 10).stats().figures
    counts = [figures.loc[("fork", f"sent[{port}]"), "last"] for port in range(4)]
    assert sum(counts) == CUSTOMERS
    assert stats.chisquare(counts, CUSTOMERS * np.array([0.1, 0.2, 0.3, 0.4])).pvalue > 0.001


def test_what_is_conserved_is_conserved():
    frame, _ = run_of("jackson")
    ends = frame.pivot(index="replication", columns=["component", "figure"], values="last")
    inside = ends[[(name, figure) for name in "abc" for figure in ("working", "waiting")]].sum(axis=1)
    assert (ends["in", "made"] - ends["out", "count"] - inside == 0).all()
