#!/usr/bin/env python3
"""expected.py NETWORK TRACE UNTIL [--json | --figures] [--from T0] [--only NAMES]: what `twarp stats` writes of a run, or with --figures
what `twarp table --figures` does, computed from its trace and its network file alone.

It is a second, independent way to the numbers: the trace is that of tests/program/ and examples/, whose bytes are not the
program's own. Of machines it knows the start values of registers, constants, queues, `length` and a table's number at `random`, which is what the
networks here show."""
import csv
import json
import os
import re
import sys

sys.path.insert(0, os.path.join(os.path.dirname(os.path.abspath(__file__)), "..", "reference"))
from simulate import mixed, permuted


def atoms(model, prefix=""):
    for part in model["components"]:
        name = prefix + part["name"]
        if "components" in part:
            yield from atoms(part, name + ".")
        else:
            yield name, part


def machine_figures(machine, part, constants):
    """The names of its figures, each with what it is of the words; the words of its start state; and its observations with their places."""
    registers, queues, start, figures, behind = machine.get("registers", {}), machine.get("queues", {}), [], [], []
    observations = []
    named = {**constants, **{it: part[it] for it in machine.get("parameters", [])}}
    constant = lambda it: named[it] if isinstance(it, str) else it
    random = permuted(mixed(constant(machine.get("random", 0)) % 2**64))
    plain = 0
    for entry in machine["words"]:
        text = " ".join(str(entry).split())
        bare = re.sub(r"#.*", "", str(entry)).replace(" ", "")
        queue = re.fullmatch(r"(\w+)(\[\d+\])?", bare)
        if queue and queue[1] in queues:
            behind.append(text)
            continue
        if bare in machine.get("observations", []):
            if not behind:
                observations.append((text, len(start)))
                start += [0, 0, 0]
            plain += 3
            continue
        if isinstance(registers.get(bare), list):
            values = [constant(it) for it in registers[bare]]
            names = [f"{text}[{i}]" for i in range(len(values))]
        elif isinstance(entry, int):
            values, names = [entry], [text]
        elif bare in registers:
            values, names = [constant(registers[bare])], [text]
        elif bare in constants and not {bare} & {*queues, *machine.get("tables", {})}:
            values, names = [constant(bare)], [text]
        elif re.fullmatch(r"length\(\w+\)", bare):
            values, names = [0], [text]
        elif drawn := re.fullmatch(r"(\w+)\[random\((\d+)\)\]", bare):
            table = machine["tables"][drawn[1]]
            table = part[table] if isinstance(table, str) else table
            values, names = [table[random * int(drawn[2]) >> 32]], [text]
        else:
            values, names = [None], [text]
        if not behind:
            figures += [(name, lambda words, at=len(start) + i: words[at]) for i, name in enumerate(names)]
            start += values
        plain += len(values)
    if behind:
        figures.append((" + ".join(behind), lambda words, n=plain: max(len(words) - n, 0)))
    return figures, start, observations


def figures_of(net, part):
    model = part["model"]
    word = lambda at: lambda words: words[at]
    beyond = lambda words: max(len(words) - 1, 0)
    return {
        "gen": lambda: ([("count", word(0))], [0], []),
        "tally": lambda: ([("count", word(0)), ("sum", word(1)), ("last", word(2))], [0, 0, 0], []),
        "relay": lambda: ([("dropped", word(0)), ("held", beyond)], [0], []),
        "queue": lambda: ([("dropped", word(0)), ("jobs", beyond)], [0], []),
        "hop": lambda: ([], [], []),
    }.get(model, lambda: machine_figures(next(it for it in net["models"] if it["name"] == model), part, net.get("constants", {})))()


def read(trace):
    """The records, and the fault."""
    records, fault = [], None
    for line in trace.splitlines():
        if line.startswith("fault: "):
            limit, name, tick, micro = re.fullmatch(r"fault: (\w+) limit: (\S+) at (\d+)\.(\d+)", line).groups()
            fault = (name, int(tick), int(micro), limit)
            continue
        head, _, words = line.partition(" |")
        at, name, kind, *items = head.split()
        # (a bag without items is written as a dash)
        items = [it for it in items if it != "-"]
        tick, micro = map(int, at.split("."))
        records.append((tick, micro, name, kind, len(items), [int(it) for it in words.split()]))
    return records, fault


def thousandths(total, time):
    n = (2000 * total + time) // (2 * time)
    return f"{'-' if n < 0 else ''}{abs(n) // 1000}.{abs(n) % 1000:03}"


def course(value, start, moves, first, end):
    """Least, greatest, last, mean and busy of a figure from a tick on and before another; and the sums behind these two."""
    start = ([start] + [words for tick, words in moves if tick < first])[-1]
    now, since, total, busy, time = value(start), first, 0, 0, end - first
    if now is None:
        sys.exit(f"a start value that is not known here: {start}")
    least = greatest = now
    for tick, words in moves:
        if tick < first:
            continue
        total, busy, since = total + now * (tick - since), busy + (now != 0) * (tick - since), tick
        now = value(words)
        least, greatest = min(least, now), max(greatest, now)
    total, busy = total + now * (end - since), busy + (now != 0) * (end - since)
    if time == 0:
        return least, greatest, now, thousandths(now, 1), thousandths(int(now != 0), 1), total, busy
    return least, greatest, now, thousandths(total, time), thousandths(busy, time), total, busy


def wrapped(n):
    """A number modulo 2^64, with sign."""
    return (n + 2**63) % 2**64 - 2**63


def deviation(count, total, squares):
    """The standard deviation of the values with these sums: the greatest n thousandths that pass the test, found by trying."""
    spread = count * squares - total * total
    if count <= 0 or not 0 <= spread < 2**105:
        return None
    passes = lambda n: n == 0 or ((2 * n - 1) * count) ** 2 <= 4_000_000 * spread
    low, high = 0, 1
    while passes(high):
        low, high = high, 2 * high
    while high - low > 1:
        middle = (low + high) // 2
        low, high = (middle, high) if passes(middle) else (low, middle)
    return f"{low // 1000}.{low % 1000:03}"


def observed(place, start, moves, first):
    """Count, sum, mean and deviation of what was observed from a tick on; None where there is none."""
    before = ([start] + [words for tick, words in moves if tick < first])[-1]
    after = ([start] + [words for tick, words in moves])[-1]
    count, total, squares = (wrapped(after[place + i] - before[place + i]) for i in range(3))
    return count, total, thousandths(total, count) if count > 0 else None, deviation(count, total, squares)


def changes(net, records, first, shown):
    """The table of the figures: all of them at a tick, and then each that a transition changed."""
    out = csv.writer(sys.stdout, lineterminator="\n")
    out.writerow(["tick", "microstep", "component", "figure", "value"])
    told = {name: figures_of(net, part) for name, part in atoms(net)}
    words = {name: start for name, (_, start, _) in told.items()}
    moves = [it for it in records if it[3] != "out"]
    for tick, _, name, _, _, after in moves:
        if tick < first:
            words[name] = after
    for name in shown:
        for figure, value in told[name][0]:
            out.writerow([first, 0, name, figure, value(words[name])])
    for tick, micro, name, _, _, after in moves:
        if tick < first or name not in shown:
            continue
        for figure, value in told[name][0]:
            if value(words[name]) != value(after):
                out.writerow([tick, micro, name, figure, value(after)])
        words[name] = after


def table(head, left, rows):
    widths = [max(len(row[i]) for row in [head, *rows]) for i in range(len(head))]
    out = []
    for row in [head, *rows]:
        cells = [it.ljust(w) if i < left else it.rjust(w) for i, (it, w) in enumerate(zip(row, widths))]
        out.append("  ".join(cells).rstrip() + "\n")
    return "".join(out)


def main():
    net, until, as_json = json.load(open(sys.argv[1])), int(sys.argv[3]), "--json" in sys.argv
    records, fault = read(open(sys.argv[2]).read())
    asked = int(sys.argv[sys.argv.index("--from") + 1]) if "--from" in sys.argv else None
    first = asked or 0
    end = max(fault[1] if fault else until, first)
    time = end - first
    counted = [it for it in records if it[0] >= first]
    microsteps = max((it[1] + 1 for it in counted), default=0)
    names = [name for name, _ in atoms(net)]
    only = sys.argv[sys.argv.index("--only") + 1].split(",") if "--only" in sys.argv else names
    shown = [name for name in names if name in only]
    if "--figures" in sys.argv:
        changes(net, records, first, shown)
        return
    counts, rows, seen, parts = [], [], [], []
    for name, part in atoms(net):
        if name not in shown:
            continue
        mine = [it for it in records if it[2] == name]
        kinds = {kind: [it for it in mine if it[3] == kind and it[0] >= first] for kind in ("out", "int", "ext", "con")}
        numbers = [len(kinds["out"]), sum(it[4] for it in kinds["out"]), sum(it[4] for it in kinds["ext"] + kinds["con"]),
                   len(kinds["int"]), len(kinds["ext"]), len(kinds["con"])]
        counts.append([name, part["model"], *map(str, numbers)])
        figures, start, observations = figures_of(net, part)
        moves = [(it[0], it[5]) for it in mine if it[3] != "out"]
        told = [(figure, *course(value, start, moves, first, end)) for figure, value in figures]
        rows += [[name, *map(str, it[:6])] for it in told]
        of = ",".join('{"name":%s,"least":%d,"greatest":%d,"last":%d,"mean":%s,"busy":%s,"mean_of":[%d,%d],"busy_of":[%d,%d]}'
                      % (json.dumps(it[0]), *it[1:7], time, it[7], time) for it in told)
        watched = [(it, *observed(place, start, moves, first)) for it, place in observations]
        seen += [[name, it[0], str(it[1]), str(it[2]), it[3] or "-", it[4] or "-"] for it in watched]
        values = ",".join('{"name":%s,"count":%d,"sum":%d,"mean":%s,"sd":%s}'
                          % (json.dumps(it[0]), it[1], it[2], it[3] or "null", it[4] or "null") for it in watched)
        parts.append('{"name":"%s","model":"%s","outputs":%d,"sent":%d,"received":%d,"int":%d,"ext":%d,"con":%d,"figures":[%s],"observations":[%s]}'
                     % (name, part["model"], *numbers, of, values))
    if as_json:
        begin = "" if asked is None else f'"from":{asked},'
        last = ',"fault":{"component":"%s","tick":%d,"microstep":%d,"limit":"%s"}' % fault if fault else ""
        print('{%s"until":%d,"records":%d,"microsteps":%d,"components":[%s]%s}'
              % (begin, until, len(counted), microsteps, ",".join(parts), last))
        return
    begin = "" if asked is None else f"from {asked}  "
    print(f"{begin}until {until}  components {len(names)}  records {len(counted)}  microsteps {microsteps}\n")
    print(table(["component", "model", "outputs", "sent", "received", "int", "ext", "con"], 2, counts))
    print(table(["component", "figure", "least", "greatest", "last", "mean", "busy"], 2, rows), end="")
    if seen:
        print("\n" + table(["component", "observation", "count", "sum", "mean", "sd"], 2, seen), end="")


main()
