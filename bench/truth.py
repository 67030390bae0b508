#!/usr/bin/env python3
"""Three examples held against truth from elsewhere: a closed formula, or a simulation of another kind with random numbers of its own.

    bench/truth.py PROGRAM [call_centre | packets | plant]

PROGRAM is the built twarp. Each network of examples/ gets a hundred ticks for each of its own and tables of 4,096 numbers, so that
neither whole ticks nor tables are seen. A line has what is measured, our mean of 20 replications with the half width of its 95 %
interval, what it is held against (with an interval if that is simulated too), and the distance in standard errors.
"""
import heapq
import json
import math
import random
import statistics
import subprocess
import sys
import tempfile
from pathlib import Path

EXAMPLES = Path(__file__).resolve().parent.parent / "examples"
FINER = 100
REPLICATIONS = 20
STUDENT = 2.093


def exponential(mean, n=4096):
    """A table: n numbers, each the mean of its share, rounded so that the remainder goes to the next."""
    tail = [(1 - i / n) * (1 - math.log(1 - i / n)) for i in range(n)] + [0]
    numbers, rest = [], 0
    for one, other in zip(tail, tail[1:]):
        rest += mean * n * (one - other)
        numbers.append(max(1, round(rest)))
        rest -= numbers[-1]
    return numbers


def load(name, **lists):
    """An example with lists of another mean each: exponential ones, in fine ticks."""
    network = json.loads((EXAMPLES / name).read_text())
    for component in network["components"]:
        component.update({key: exponential(FINER * mean) for key, mean in lists.items() if key in component})
    return network


def replicate(network, ticks, measure):
    """What `measure` finds in the figures of each replication, of the time behind its first tenth."""
    runs = []
    with tempfile.NamedTemporaryFile("w", suffix=".json") as file:
        json.dump(network, file)
        file.flush()
        until = FINER * ticks
        line = [sys.argv[1], "stats", file.name, "--until", str(until), "--from", str(until // 10), "--json"]
        for s in range(1, REPLICATIONS + 1):
            told = json.loads(subprocess.run([*line, "--seed-all", str(s)], check=True, capture_output=True).stdout)
            parts = {part["name"]: part for part in told["components"]}
            for part in parts.values():
                part.update({figure["name"]: figure for figure in part["figures"] + part["observations"]})
            runs.append(measure(parts, until - until // 10))
    return runs


def compare(runs, truth):
    """A line for each number: `truth` is a number each, or a list of runs too."""
    for name in runs[0]:
        ours = [run[name] for run in runs]
        theirs = [run[name] for run in truth] if isinstance(truth, list) else [truth[name]] * 2
        mean, other = statistics.mean(ours), statistics.mean(theirs)
        error, second = (statistics.stdev(many) / math.sqrt(len(many)) for many in (ours, theirs))
        interval = f" +- {STUDENT * second:.5f}" if second else ""
        distance = (mean - other) / math.hypot(error, second)
        print(f"  {name}: {mean:.5f} +- {STUDENT * error:.5f}, truth {other:.5f}{interval}, {distance:+.1f} standard errors")


def call_centre():
    """M/M/c+M with a line of 16 (Erlang-A), c = 3: the chain of how many calls there are."""
    gap, talk, patience, agents, room = 40, 120, 60, 3, 16
    weight = [1.0]
    for n in range(1, agents + room + 1):
        weight.append(weight[-1] / gap / (min(n, agents) / talk + max(0, n - agents) / patience))
    share = [w / sum(weight) for w in weight]
    given_up = answered = waited = 0.0
    for ahead in range(room):
        # who finds so many ahead: each leaves after an exponential time, this caller by giving up, or one of the others
        away = [agents / talk + (i + 1) / patience for i in range(ahead + 1)]
        stays = math.prod((a - 1 / patience) / a for a in away)
        answered += share[agents + ahead] * stays
        given_up += share[agents + ahead] * (1 - stays)
        waited += share[agents + ahead] * stays * sum(1 / a for a in away)
    answered += sum(share[:agents])
    waited_all = sum((n - agents) * share[n] for n in range(agents, len(share))) * gap
    truth = {"share that gives up": given_up / (1 - share[-1]), "wait of the answered": waited / answered,
             "wait of who gives up": (waited_all - waited) / given_up, "length of the line": waited_all / gap}

    def measure(parts, _):
        desk = parts["desk"]
        waits, gave_up = desk["waited"], desk["gave_up"]
        return {"share that gives up": gave_up["count"] / (gave_up["count"] + waits["count"]),
                "wait of the answered": waits["mean"] / FINER, "wait of who gives up": gave_up["mean"] / FINER,
                "length of the line": desk["length(line)"]["mean"]}

    network = load("call-centre.json", gaps=gap, talks=talk, patiences=patience)
    compare(replicate(network, 2_000_000, measure), truth)


def packets():
    """The network by an event list; and its first link alone, with packets of one size, as M/D/1/4."""
    gap, places, slow, sizes = 12, 4, {"west": 2, "east": 3}, [1, 1, 2, 4]

    def by_events(seed, ticks):
        draw, serial = random.Random(seed), iter(range(10**9))
        lines, seen = {}, {"west": [0, 0], "east": [0, 0], "x": [], "y": []}
        events = [(draw.expovariate(1 / gap), next(serial), "source", name) for name in "abc"]

        def arrive(now, router, packet):
            link = (router, packet[2] if router == "east" else 0)
            line = lines.setdefault(link, [])
            seen[router][0] += now > ticks / 10
            if len(line) == places:
                seen[router][1] += now > ticks / 10
                return
            line.append(packet)
            if len(line) == 1:
                heapq.heappush(events, (now + packet[1] * slow[router], next(serial), "link", link))

        while True:
            now, _, kind, what = heapq.heappop(events)
            if now > ticks:
                break
            if kind == "source":
                heapq.heappush(events, (now + draw.expovariate(1 / gap), next(serial), kind, what))
                arrive(now, "east" if what == "c" else "west", (now, draw.choice(sizes), 0 if what == "a" else 1))
                continue
            packet, *behind = lines[what]
            lines[what] = behind
            if behind:
                heapq.heappush(events, (now + behind[0][1] * slow[what[0]], next(serial), kind, what))
            if what[0] == "west":
                arrive(now, "east", packet)
            elif now > ticks / 10:
                seen["xy"[packet[2]]].append(now - packet[0])
        return {"lost in the west": seen["west"][1] / seen["west"][0], "lost in the east": seen["east"][1] / seen["east"][0],
                "delay to x": statistics.mean(seen["x"]), "delay to y": statistics.mean(seen["y"])}

    def measure(parts, _):
        lost = {name: (parts[name]["dropped"]["last"] - parts[name]["dropped"]["least"]) / parts[name]["received"] for name in slow}
        return {"lost in the west": lost["west"], "lost in the east": lost["east"],
                "delay to x": parts["x"]["delay"]["mean"] / FINER, "delay to y": parts["y"]["delay"]["mean"] / FINER}

    network = load("packets.json", gaps=gap)
    for component in network["components"]:
        if "ticks" in component:
            component["ticks"] *= FINER
    compare(replicate(network, 250_000, measure), [by_events(s, 250_000) for s in range(REPLICATIONS)])

    # what a packet that leaves sees behind it: a chain, of which the loss follows (M/D/1/K)
    load_of_it = 2 / gap * 2 * slow["west"]
    come = [math.exp(-load_of_it) * load_of_it**j / math.factorial(j) for j in range(places)]
    left = [1.0]  # (weights: from n to n + 1 is solved for)
    for n in range(places - 1):
        left.append((left[n] - left[0] * come[n] - sum(left[i] * come[n - i + 1] for i in range(1, n + 1))) / come[0])
    none = left[0] / sum(left)
    for component in network["components"]:
        component.update({"sizes": [2]} if "sizes" in component else {})
    only = {"lost in the west, one size": 1 - 1 / (none + load_of_it)}
    compare(replicate(network, 250_000, lambda parts, _: {next(iter(only)): measure(parts, _)["lost in the west"]}), only)


def plant():
    """The line as max-plus sums over parts; and what is up for how long, and how much a station makes that never waits, by formulas."""
    life, repair, times, places = 100, 25, [10, 9, 11], 3

    def by_parts(seed, parts):
        draw = random.Random(seed)
        fails = [draw.expovariate(1 / life) for _ in times]  # when each station breaks next

        def up(k, at):
            """The first moment from `at` on at which station k is not under repair."""
            while fails[k] <= at:
                repaired = fails[k] + draw.expovariate(1 / repair)
                fails[k] = repaired + draw.expovariate(1 / life)
                at = max(at, repaired)
            return at

        def worked(k, at, rest):
            """When a work of so long is done that begins at `at`."""
            while fails[k] < at + rest:
                rest -= fails[k] - at
                at = up(k, fails[k])
            return at + rest

        begun, done, gone = ([[0.0] * parts for _ in times] for _ in range(3))
        for i in range(parts):
            for k, time in enumerate(times):
                begun[k][i] = up(k, max(gone[k][i - 1] if i else 0, gone[k - 1][i] if k else 0))
                done[k][i] = worked(k, begun[k][i], time)
                gone[k][i] = done[k][i]
                # (the place of part i - places must be free; its station begins that one before)
                if k < 2 and i >= places:
                    gone[k][i] = max(done[k][i], begun[k + 1][i - places])
        first = parts // 10
        span = gone[2][-1] - gone[2][first]
        many = range(first, parts)
        return {"parts in 100 ticks": 100 * (parts - first - 1) / span,
                "share of the saw held": sum(gone[0][i] - done[0][i] for i in many) / span,
                "waiting for the mill": sum(begun[1][i] - gone[0][i] for i in many) / span,
                "waiting for the press": sum(begun[2][i] - gone[1][i] for i in many) / span}

    def measure(parts, span):
        return {"parts in 100 ticks": 100 * FINER * (parts["press"]["made"]["last"] - parts["press"]["made"]["least"]) / span,
                "share of the saw held": parts["saw"]["held"]["mean"],
                "waiting for the mill": parts["mill"]["waiting"]["mean"], "waiting for the press": parts["press"]["waiting"]["mean"]}

    network = load("plant.json", lives=life, repairs=repair)
    for component in network["components"]:
        if "time" in component:
            component["time"] *= FINER
    compare(replicate(network, 1_000_000, measure), [by_parts(s, 60_000) for s in range(REPLICATIONS)])

    for component in network["components"]:
        if component["name"] == "saw":
            component["places"] = 1_000_000_000
    down = repair / (life + repair)
    truth = {"share of the saw under repair": down, "the saw alone, parts in 100 ticks": 100 * (1 - down) / times[0]}
    compare(replicate(network, 1_000_000, lambda parts, span: {
        "share of the saw under repair": parts["saw"]["running(repair)"]["mean"],
        "the saw alone, parts in 100 ticks": 100 * FINER * (parts["saw"]["made"]["last"] - parts["saw"]["made"]["least"]) / span}), truth)


for tried in (call_centre, packets, plant):
    if sys.argv[2:] in ([], [tried.__name__]):
        print(tried.__name__)
        tried()
