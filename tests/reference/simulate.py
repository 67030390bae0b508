#!/usr/bin/env python3
"""simulate.py NETWORK UNTIL: the trace that `twarp seq NETWORK --until UNTIL` writes, computed from the formats alone.

A second sequential simulator, written from docs/FORMATS.md and docs/MACHINES.md and independent of the program: it shares no code with
it, walks rounds in the plainest way, and interprets the text of a machine as it stands. It reads files without faults, of all three
formats, and is slow.
"""
import json
import re
import sys

MASK = 2**64 - 1
MULTIPLIER, INCREMENT = 6364136223846793005, 1442695040888963407
MAX_TICK = 2**40 - 2


def signed(number):
    """The number modulo 2^64, with sign."""
    number &= MASK
    return number - 2**64 if number >> 63 else number


def mixed(seed):
    """SplitMix64's mix of a seed (Steele, Lea and Flood 2014)."""
    z = (seed + 0x9E3779B97F4A7C15) & MASK
    z = (z ^ z >> 30) * 0xBF58476D1CE4E5B9 & MASK
    z = (z ^ z >> 27) * 0x94D049BB133111EB & MASK
    return z ^ z >> 31


def permuted(x):
    """The output of PCG XSH RR 64/32 (O'Neill 2014)."""
    word, turns = (x >> 18 ^ x) >> 27 & 0xFFFFFFFF, x >> 59
    return (word >> turns | word << 32 - turns) & 0xFFFFFFFF


def stepped(x):
    return (MULTIPLIER * x + INCREMENT) & MASK


# The five built-in models. Each has `left` (the remaining time, None where passive), output(), int_(), ext(elapsed, bag), words().
class Gen:
    def __init__(self, part):
        self.period, self.value, self.count = part["period"], part["value"], 0
        self.left = self.period

    def output(self, elapsed, tick):
        return [(0, self.value)]

    def int_(self, elapsed):
        self.count, self.left = self.count + 1, self.period

    def ext(self, elapsed, bag):
        self.left -= elapsed

    def words(self):
        return [self.count]


class Tally:
    def __init__(self, part):
        self.count = self.sum = self.last = 0
        self.left = None

    def ext(self, elapsed, bag):
        for _, value in bag:
            self.count, self.sum, self.last = (self.count + 1) & MASK, signed(self.sum + value), value

    def words(self):
        return [self.count, self.sum, self.last]


class Relay:
    def __init__(self, part):
        self.delay, self.held, self.dropped, self.left = part["delay"], [], 0, None

    def output(self, elapsed, tick):
        return [(0, value) for value in self.held]

    def int_(self, elapsed):
        self.held, self.left = [], None

    def ext(self, elapsed, bag):
        self.left = self.left - elapsed if self.held else self.delay
        for _, value in bag:
            if len(self.held) < 32:
                self.held.append(value)
            else:
                self.dropped += 1

    def words(self):
        return [self.dropped, *self.held]


class Queue:
    def __init__(self, part):
        self.service, self.jobs, self.dropped, self.left = part["service"], [], 0, None

    def output(self, elapsed, tick):
        return [(0, self.jobs[0])]

    def int_(self, elapsed):
        self.jobs.pop(0)
        self.left = self.service if self.jobs else None

    def ext(self, elapsed, bag):
        self.left = self.left - elapsed if self.jobs else self.service
        for _, value in bag:
            if len(self.jobs) < 64:
                self.jobs.append(value)
            else:
                self.dropped += 1

    def words(self):
        return [self.dropped, *self.jobs]


class Hop:
    def __init__(self, part):
        self.x, self.ports, self.spread = part["seed"], part["ports"], part["spread"]
        self.left = self.wait()

    def wait(self):
        return 1 + (self.x >> 33) % self.spread

    def output(self, elapsed, tick):
        return [((self.x >> 48) % self.ports, (self.x >> 32) % 1000)]

    def int_(self, elapsed):
        self.x = stepped(self.x)
        self.left = self.wait()

    def ext(self, elapsed, bag):
        for _, value in bag:
            self.x = stepped(self.x + value & MASK)
        self.left -= elapsed

    def words(self):
        return [self.x]


BUILT_IN = {"gen": Gen, "tally": Tally, "relay": Relay, "queue": Queue, "hop": Hop}
WORDS = re.compile(r"[A-Za-z0-9_]+|[+\-^]=|==|!=|<=|>=|[^\sA-Za-z0-9_]")


def places_of(fields):
    """Of each field by its name the number that its lowest bit stands for, and how many numbers it has."""
    places, low = {}, 0
    for name, bits in fields:
        places[name] = 2**low, 2**bits
        low += bits
    return places


class Machine:
    """A machine of the file with the numbers of a component, and the file's fields and constants. Its texts are read anew each
    time they run."""

    def __init__(self, machine, part, fields, constants):
        self.part, self.fields, self.constants = part, fields, constants
        self.own = set(machine.get("parameters", []))
        number = self.number
        self.machine = machine
        self.registers = {}
        for name, it in machine.get("registers", {}).items():
            self.registers[name] = [number(cell) for cell in it] if isinstance(it, list) else number(it)
        self.queues, self.rooms = {}, {}
        for name, it in machine.get("queues", {}).items():
            many = isinstance(it, list)
            self.rooms[name] = number(it[1] if many else it)
            self.queues[name] = [[] for _ in range(number(it[0]))] if many else []
        self.tables = {name: part[it] if isinstance(it, str) else it for name, it in machine.get("tables", {}).items()}
        self.parameters = {it: part[it] for it in machine.get("parameters", []) if not isinstance(part[it], list)}
        self.observations = {name: [0, 0, 0] for name in machine.get("observations", [])}
        self.procedures = dict(machine.get("procedures", []))
        timers = [it["name"] for it in machine.get("timers", [])]
        self.names = {*self.procedures, *self.own, *self.registers, *self.queues, *self.tables, *self.observations, *timers}
        self.x = mixed(number(machine.get("random", 0)) & MASK)
        self.time = 0
        self.left = None
        self.drawn = False
        self.longest = number(machine["longest"]) if "longest" in machine else None
        self.seen = {}
        first = number(machine.get("first", -1))
        if first >= 0:
            self.left = self.brought(first)
        self.declare_timers()

    def number(self, it):
        """What stands where a number may stand: a number, or the name of a parameter or of a constant of the file."""
        return it if not isinstance(it, str) else self.part[it] if it in self.own else self.constants[it]

    def declare_timers(self):
        """Timers: by name where its first is among all, and its count; of each which entry it is of, its number, and when it is due."""
        self.places, self.owners, self.due, self.outbox, self.which = {}, [], [], [], 0
        self.least = self.number(self.machine.get("least", 0))
        for entry in self.machine.get("timers", []):
            count = self.number(entry["count"]) if "count" in entry else None
            first = self.number(entry.get("first", -1))
            self.places[entry["name"]] = len(self.due), count
            for number in range(1 if count is None else count):
                self.owners.append((entry, number))
                self.due.append(max(first, self.least) if first >= 0 else None)
        self.settle()

    def settle(self):
        """Behind a transition of a machine with timers: what it waits for."""
        if "timers" in self.machine:
            running = [it for it in self.due if it is not None]
            self.left = 0 if self.outbox else min(running) - self.time if running else None

    def going(self):
        """The place of the timer that goes: the first of those that are due soonest."""
        return self.due.index(min(it for it in self.due if it is not None))

    def timer(self):
        name = self.take()
        at, count = self.places[name]
        return at if count is None else at + self.index(count)

    def brought(self, wait):
        wait = max(wait, 0)
        return wait if self.longest is None else min(max(wait, 1), self.longest)

    # Reading.
    def begin_text(self, text):
        text = "\n".join(text) if isinstance(text, list) else str(text)
        self.tokens = WORDS.findall(re.sub(r"#[^\n]*", " ", text))
        self.at = 0

    def begin(self, text, **seen):
        self.begin_text(text)
        self.seen = {"port": 0, "value": 0, "elapsed": 0, "left": 0, "now": self.time, "turn": 0, "which": self.which, **seen}

    def peek(self):
        return self.tokens[self.at] if self.at < len(self.tokens) else ""

    def take(self, *wanted):
        token = self.peek()
        assert not wanted or token in wanted, (token, wanted)
        self.at += 1
        return token

    # Expressions are computed while they are read.
    def level(self, below, operators):
        value = below()
        while self.peek() in operators:
            value = self.apply(self.take(), value, below())
        return value

    def expr(self):
        return self.level(self.conjunction, ("or",))

    def conjunction(self):
        return self.level(self.negation, ("and",))

    def negation(self):
        if self.peek() == "not":
            self.take()
            return int(not self.negation())
        value = self.sum()
        if self.peek() in ("==", "!=", "<", "<=", ">", ">="):
            value = self.apply(self.take(), value, self.sum())
        return value

    def sum(self):
        return self.level(self.product, ("+", "-"))

    def product(self):
        return self.level(self.unary, ("*", "/", "%"))

    def unary(self):
        if self.peek() == "-":
            self.take()
            return signed(-self.unary())
        return self.primary()

    @staticmethod
    def apply(operator, a, b):
        return {
            "or": lambda: int(bool(a) or bool(b)),
            "and": lambda: int(bool(a) and bool(b)),
            "==": lambda: int(a == b),
            "!=": lambda: int(a != b),
            "<": lambda: int(a < b),
            "<=": lambda: int(a <= b),
            ">": lambda: int(a > b),
            ">=": lambda: int(a >= b),
            "+": lambda: signed(a + b),
            "-": lambda: signed(a - b),
            "*": lambda: signed(a * b),
            "/": lambda: a // b if b > 0 else 0,
            "%": lambda: a % b if b > 0 else 0,
        }[operator]()

    def index(self, count):
        self.take("[")
        value = self.expr()
        self.take("]")
        return min(max(value, 0), count - 1)

    def queue(self):
        name = self.take()
        many = isinstance(self.machine["queues"][name], list)
        queue = self.queues[name][self.index(len(self.queues[name]))] if many else self.queues[name]
        return queue, self.rooms[name]

    def primary(self):
        token = self.take()
        if token == "(":
            value = self.expr()
            self.take(")")
            return value
        if token.isdigit():
            return int(token)
        if self.peek() == "(" and token != "random":
            return self.function(token)
        if token == "random":
            if self.peek() != "(":
                return permuted(self.x)
            self.take("(")
            end = self.expr()
            self.take(")")
            return self.below(end)
        if token in self.tables:
            return self.tables[token][self.index(len(self.tables[token]))]
        if token in self.registers:
            cells = self.registers[token]
            return cells[self.index(len(cells))] if isinstance(cells, list) else cells
        if token in self.parameters:
            return self.parameters[token]
        return self.constants[token] if token in self.constants else self.seen[token]

    def below(self, end):
        return permuted(self.x) * end >> 32 if end > 0 else 0

    def move_on(self):
        """Behind a statement or a test: x moves where a number was drawn in it."""
        if self.drawn:
            self.x = stepped(self.x)
        self.drawn = False

    def item(self):
        """The value of an item by its fields; those that are not named are 0."""
        value, sign = 0, ","
        while sign == ",":
            one, count = self.fields[self.take()]
            self.take(":")
            value += self.expr() % count * one
            sign = self.take(",", ")")
        return value

    def function(self, name):
        self.take("(")
        if name in self.fields:
            one, count = self.fields[name]
            value = self.expr() // one % count
            self.take(")")
            return value
        if name == "item":
            return self.item()
        if name == "roll":
            self.drawn = True
            end = self.expr()
            self.take(")")
            return self.below(end)
        if name == "sample" or (name == "length" and self.peek() in self.tables):
            table = self.tables[self.take()]
            self.take(")")
            if name == "length":
                return len(table)
            self.drawn = True
            return table[self.below(len(table))]
        if name in ("running", "rest"):
            due = self.due[self.timer()]
            self.take(")")
            return int(due is not None) if name == "running" else -1 if due is None else due - self.seen["now"]
        if name == "idle":
            at, count = self.places[self.take()]
            self.take(")")
            return next((i for i in range(count) if self.due[at + i] is None), -1)
        if name in ("min", "max", "choose"):
            values = [self.expr()]
            while self.peek() == ",":
                self.take()
                values.append(self.expr())
            self.take(")")
            return min(values) if name == "min" else max(values) if name == "max" else values[1] if values[0] else values[2]
        values, room = self.queue()
        at = None
        if name in ("at", "place"):
            self.take(",")
            at = self.expr()
        self.take(")")
        return {
            "length": lambda: len(values),
            "room": lambda: room,
            "sum": lambda: signed(sum(values)),
            "front": lambda: values[0] if values else 0,
            "last": lambda: values[-1] if values else 0,
            "at": lambda: values[at] if 0 <= at < len(values) else 0,
            "place": lambda: place(values, at),
        }[name]()

    # Statements. A block that is not run is skipped word by word.
    def skip(self):
        depth = 0
        while True:
            depth += {"{": 1, "}": -1}.get(self.take(), 0)
            if not depth:
                return

    def block(self, runs):
        if not runs:
            return self.skip()
        self.take("{")
        while self.peek() != "}":
            self.statement()
        self.take("}")

    def program(self, text, **seen):
        self.begin(text, **seen)
        while self.peek():
            self.statement()

    def statement(self):
        token = self.peek()
        if token == ";":
            self.take()
        elif token == "draw":
            self.take()
            self.x = stepped(self.x)
        elif token == "wait":
            self.take()
            self.left = self.brought(self.expr())
        elif token == "passivate":
            self.take()
            self.left = None
        elif token in ("push", "insert", "put"):
            self.take()
            queue, room = self.queue()
            value = self.expr()
            at = {"push": lambda: len(queue), "insert": lambda: place(queue, value), "put": lambda: value}[token]()
            if token == "put":
                self.take(",")
                value = self.expr()
            if len(queue) < room:
                queue.insert(min(max(at, 0), len(queue)), value)
        elif token in ("pop", "remove"):
            self.take()
            queue, _ = self.queue()
            at = self.expr() if token == "remove" else 0
            if 0 <= at < len(queue):
                del queue[at]
        elif token == "clear" and token not in self.names:
            self.take()
            queue, _ = self.queue()
            queue.clear()
        elif token == "observe" and token not in self.names:
            self.take()
            seen = self.observations[self.take()]
            value = self.expr()
            seen[:] = [signed(seen[0] + 1), signed(seen[1] + value), signed(seen[2] + value * value)]
        elif token == "do" and token not in self.names:
            self.take()
            self.do(self.procedures[self.take()])
            return
        elif token in ("start", "stop", "send") and "timers" in self.machine:
            self.take()
            self.treat(token)
        elif token == "repeat":
            self.take()
            self.repeat()
        elif token == "if":
            self.choose()
        else:
            self.change()
        self.move_on()

    def treat(self, token):
        """A timer is started or stopped, or an item is to be sent."""
        if token == "send":
            port = self.expr()
            self.take(",")
            value = self.expr()
            if len(self.outbox) < 64:
                self.outbox.append((port, value))
            return
        at = self.timer()
        if token == "stop":
            self.due[at] = None
            return
        self.take("in")
        self.due[at] = self.seen["now"] + min(max(self.expr(), self.least), MAX_TICK + 1)

    def do(self, text):
        """A procedure: its program in the place of the statement."""
        tokens, at = self.tokens, self.at
        self.begin_text(text)
        while self.peek():
            self.statement()
        self.tokens, self.at = tokens, at

    def repeat(self):
        token = self.take()
        count = int(token) if token.isdigit() else self.number(token)
        start, outer = self.at, self.seen["turn"]
        for turn in range(count):
            self.at, self.seen["turn"] = start, turn
            self.block(True)
        if not count:
            self.skip()
        self.seen["turn"] = outer

    def choose(self):
        done = False
        while True:
            self.take("if")
            # (a test behind the branch that runs is computed too, and changes nothing)
            x = self.x
            holds = self.expr() != 0
            self.move_on()
            if done:
                self.x = x
            self.block(holds and not done)
            done = done or holds
            if self.peek() != "else":
                return
            self.take()
            if self.peek() != "if":
                return self.block(not done)

    def change(self):
        name = self.take()
        cells = self.registers[name]
        at = self.index(len(cells)) if isinstance(cells, list) else None
        operator = self.take("=", "+=", "-=", "^=")
        value = self.expr()
        before = cells if at is None else cells[at]
        after = {
            "=": lambda: value,
            "+=": lambda: signed(before + value),
            "-=": lambda: signed(before - value),
            "^=": lambda: signed(before ^ value),
        }[operator]()
        if at is None:
            self.registers[name] = after
        else:
            cells[at] = after

    # The model.
    def output(self, elapsed, tick):
        if self.outbox:
            return [(port, value) for port, value in self.outbox if 0 <= port <= 15]
        if "timers" not in self.machine:
            return self.sent(self.machine.get("output", []), elapsed, tick)
        entry, self.which = self.owners[self.going()]
        items = self.sent(entry.get("output", []), elapsed, tick)
        self.which = 0
        return items

    def sent(self, entries, elapsed, tick):
        items = []
        for entry in entries:
            values = [0]
            if "each" in entry:
                self.begin(entry["each"], elapsed=elapsed, now=tick)
                values = list(self.queue()[0])
            for place, value in enumerate(values):
                read = {}
                for member in ("when", "port", "value"):
                    self.begin(entry.get(member, 1), elapsed=elapsed, now=tick, value=value, turn=place)
                    read[member] = self.expr()
                if read["when"] and 0 <= read["port"] <= 15:
                    items.append((read["port"], read["value"]))
        return items[:64]

    def int_(self, elapsed):
        self.time += elapsed
        self.left = None
        if "timers" not in self.machine:
            self.program(self.machine.get("internal", ""), elapsed=elapsed)
        elif self.outbox:
            self.outbox = []
        else:
            at = self.going()
            self.due[at] = None
            entry, self.which = self.owners[at]
            self.program(entry.get("do", ""), elapsed=elapsed)
            self.which = 0
        self.settle()

    def ext(self, elapsed, bag):
        self.time += elapsed
        if self.left is not None:
            self.left -= elapsed
        left = -1 if self.left is None else self.left
        for port, value in bag:
            self.program(self.machine.get("external", ""), port=port, value=value, elapsed=elapsed, left=left)
            elapsed = 0
        self.settle()

    def words(self):
        numbers = []
        for entry in self.machine["words"]:
            bare = re.sub(r"#[^\n]*|\s", "", str(entry))
            name = re.match(r"\w*", bare)[0]
            if re.fullmatch(r"\w+(\[\d+\])?", bare) and name in self.queues:
                self.begin(entry)
                numbers += self.queue()[0]
            elif isinstance(self.registers.get(bare), list):
                numbers += self.registers[bare]
            elif bare in self.observations:
                numbers += self.observations[bare]
            else:
                self.begin(entry)
                numbers.append(self.expr())
        return numbers


def place(values, value):
    return next((i for i, other in enumerate(values) if value < other), len(values))


def flat(model, prefix=""):
    """The atoms of a tree in order, and its couplings as a set of paths' ends."""
    names, atoms, edges = [], [], []
    for part in model["components"]:
        name = prefix + part["name"]
        if "components" in part:
            below, more = flat(part, name + ".")
            atoms += below
            edges += more
        else:
            atoms.append((name, part))
        names.append(part["name"])
    end = lambda name: prefix[:-1] if name == "" else prefix + name
    # (an end of a coupled model seen from inside is its port of the other direction)
    for source, port, to, to_port in model["couplings"]:
        edges.append((("in" if source == "" else "out", end(source), port), ("out" if to == "" else "in", end(to), to_port)))
    return atoms, edges


def routes_of(atoms, edges):
    numbers = {name: number for number, (name, _) in enumerate(atoms)}
    behind = {}
    for source, to in edges:
        behind.setdefault(source, set()).add(to)

    def reached(place):
        kind, name, port = place
        if kind == "in" and name in numbers:
            return {(numbers[name], port)}
        return set().union(*(reached(it) for it in behind.get(place, ())), set())

    return lambda number, port: sorted(reached(("out", atoms[number][0], port)))


def bag_text(bag):
    return " ".join(f"{port}={value}" for port, value in bag) or "-"


def simulate(net, until, write):
    atoms, edges = flat(net)
    routes = routes_of(atoms, edges)
    names = [name for name, _ in atoms]
    machines = {it["name"]: it for it in net.get("models", [])}
    fields, constants = places_of(net.get("fields", [])), net.get("constants", {})
    made = lambda part: Machine(machines[part["model"]], part, fields, constants)
    parts = [BUILT_IN[part["model"]](part) if part["model"] in BUILT_IN else made(part) for _, part in atoms]
    last = [0] * len(parts)
    due = [None if it.left is None else (it.left, 0) for it in parts]
    inputs = {}
    for it in net["inputs"]:
        inputs.setdefault(it["tick"], []).append((names.index(it["to"]), it["port"], it["value"]))
    while True:
        times = [it for it in due if it is not None] + [(tick, 0) for tick in inputs]
        if not times or min(times)[0] >= until:
            return
        tick, micro = now = min(times)
        bags = {}
        for to, port, value in inputs.pop(tick, []) if micro == 0 else []:
            bags.setdefault(to, []).append((port, value))
        imminent = [c for c in range(len(parts)) if due[c] == now]
        for c in imminent:
            items = sorted(parts[c].output(tick - last[c], tick))
            write(f"{tick}.{micro} {names[c]} out {bag_text(items)}\n")
            for port, value in items:
                for to, to_port in routes(c, port):
                    bags.setdefault(to, []).append((to_port, value))
        lines = []
        for c in sorted({*imminent, *bags}):
            bag, elapsed = sorted(bags.get(c, [])), tick - last[c]
            kind = ("con" if bag else "int") if c in imminent else "ext"
            if kind != "ext":
                parts[c].int_(elapsed)
            if bag:
                parts[c].ext(0 if kind == "con" else elapsed, bag)
            left = parts[c].left
            if left is None:
                due[c] = None
            elif left:
                due[c] = (tick + left, 0)
            else:
                due[c] = (tick, micro + 1)
            limit = due[c] and ("microstep" if due[c][1] > net["micro_limit"] else "tick" if due[c][0] > MAX_TICK else None)
            if limit:
                return write(f"fault: {limit} limit: {names[c]} at {tick}.{micro}\n")
            last[c] = tick
            words = " ".join(map(str, parts[c].words()))
            shown = f"{kind} {bag_text(bag)}" if bag else kind
            lines.append(f"{tick}.{micro} {names[c]} {shown} | {words}\n")
        for line in lines:
            write(line)


if __name__ == "__main__":
    with open(sys.argv[1], encoding="utf-8") as file:
        simulate(json.load(file), int(sys.argv[2]), sys.stdout.write)
