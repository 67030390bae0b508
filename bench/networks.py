"""Networks drawn at random, as the JSON values of their files: flat ones of the five models, nested ones, and ones with machines."""

import json
import random
from pathlib import Path

EXAMPLES = Path(__file__).resolve().parent.parent / "examples"
BIG = [-(2**63), -(2**63) - 1, 2**63 - 1, 2**63, 2**64 - 1, 2**64, 1099511627774, 1099511627775, 1099511627776, 8388607, 8388608, 0, -1, 1e3]


def model(draw, name):
    """A component of one of the five models, of which time may stand still."""
    kind = draw.choice(["gen", "tally", "relay", "queue", "hop", "hop", "relay"])
    more = {
        "gen": lambda: {"period": draw.randint(1, 4), "value": draw.randint(-9, 9)},
        "tally": dict,
        "relay": lambda: {"delay": draw.choice([0, 1, 1, 2, 3])},
        "queue": lambda: {"service": draw.choice([0, 1, 2, 3])},
        "hop": lambda: {"seed": draw.randint(0, 99), "ports": draw.randint(1, 3), "spread": draw.choice([1, 2, 4])},
    }[kind]()
    return {"name": name, "model": kind, **more}


def inputs(draw, names, until):
    """Inputs of these components, some of them at one tick and equal."""
    found = []
    for _ in range(draw.choice([0, 1, 2, 4, 8])):
        one = {"tick": draw.randint(0, until), "to": draw.choice(names), "port": draw.randint(0, 2), "value": draw.randint(-3, 9)}
        found += [one] * draw.choice([1, 1, 1, 2, 3])
    return found


def couplings(draw, names, many):
    """Couplings between different components, none twice."""
    found = set()
    for _ in range(many):
        one, other = draw.choice(names), draw.choice(names)
        if one != other:
            found.add((one, draw.randint(0, 2), other, draw.randint(0, 2)))
    return [list(it) for it in sorted(found)]


def flat(draw):
    """A network of one to eight components, and an end tick."""
    names = list("abcdefgh")[: draw.randint(1, 8)]
    until = draw.choice([2, 4, 8, 16])
    return {
        "format": "tw-1",
        "micro_limit": draw.choice([1, 2, 5, 100]),
        "components": [model(draw, name) for name in names],
        "couplings": couplings(draw, names, draw.randint(0, 12)),
        "inputs": inputs(draw, names, until),
    }, until


def coupled(draw, name, depth):
    """A coupled model, whose parts are models or, down to a depth, coupled models."""
    names = list("abc")[: draw.randint(1, 3)]
    parts = [coupled(draw, it, depth - 1) if depth > 0 and draw.random() < 0.5 else model(draw, it) for it in names]
    return {"name": name, "components": parts, "couplings": couplings(draw, [*names, ""], draw.randint(0, 6))}


def nested(draw):
    """A network of coupled models, and an end tick."""
    whole = coupled(draw, "", 3)
    until = draw.choice([2, 4, 8])
    names = [it["name"] for it in whole["components"]]
    atoms = [it["name"] for it in whole["components"] if "model" in it]
    return {
        "format": "tw-2",
        "micro_limit": draw.choice([1, 5, 100]),
        "components": whole["components"],
        "couplings": couplings(draw, names, draw.randint(0, 6)),
        "inputs": inputs(draw, atoms, until) if atoms else [],
    }, until


def with_machines(draw):
    """An example of machines, with other numbers here and there, and an end tick."""
    files = sorted(it for it in EXAMPLES.glob("*.json") if '"tw-3"' in it.read_text())
    value = json.loads(draw.choice(files).read_text())
    if draw.random() < 0.5:
        fielded(draw, value)
    for machine in value["models"]:
        if draw.random() < 0.5:
            observed(draw, machine)
        if "timers" in machine and draw.random() < 0.7:
            timed(draw, machine)
        elif machine.get("queues") and draw.random() < 0.3:
            cleared(draw, machine)
        if draw.random() < 0.5:
            drawn(draw, machine)
    return value, draw.choice([5, 20, 40])


def lead(where, member, *lines):
    """These lines stand first in the program of a machine or of a timer."""
    program = where.get(member, [])
    where[member] = [*lines, *(program if isinstance(program, list) else [program])]


def programs(machine):
    """Where the programs of a machine stand: those of its timers, if it has them."""
    own = [(it, "do") for it in machine["timers"]] if "timers" in machine else [(machine, "internal")]
    return [*own, (machine, "external")]


def timed(draw, machine):
    """A machine with more timers, which its programs start and stop, and with items that it sends at any time."""
    extra = {"name": "extra", "count": draw.randint(1, 4), "output": [{"port": "which % 3", "value": "now", "when": draw.choice(["which != 1", 1])}]}
    if draw.random() < 0.5:
        extra["first"] = draw.randint(0, 4)
    machine["timers"] = [*machine["timers"], extra]
    if draw.random() < 0.3:
        machine["least"] = draw.randint(1, 3)
    lines = ["start extra[idle(extra)] in 1 + roll(4)", "stop extra[which]", "send which, rest(extra[0])", "start extra[now % 5] in -now % 3 + 1", "if running(extra[1]) { send 17, 0  send 0, which }"]
    for where, member in programs(machine):
        lead(where, member, draw.choice(lines), draw.choice(lines))


def observed(draw, machine):
    """A machine that observes numbers besides."""
    machine["observations"] = [*machine.get("observations", []), "seen", "other_seen"]
    machine["words"] = [*machine["words"], "seen", "other_seen"][-64:]
    for where, member in programs(machine):
        rest = "now" if "timers" in machine else "left"
        name, number = draw.choice(["seen", "other_seen"]), draw.choice(["value", "now - 3", "-elapsed", f"4611686018427387904 + {rest}"])
        lead(where, member, f"observe {name} {number}")


def fielded(draw, value):
    """A file with fields and constants besides, of which its machines make use in programs, outputs, rooms and starts."""
    value["constants"] = {**value.get("constants", {}), "few": draw.randint(1, 5), "many": draw.choice([-(2**63), -1, 0, 7, 2**63 - 1])}
    if "fields" not in value:
        split = draw.choice([[7, 21, 35], [1, 62], [62, 1], [3], [1, 2, 4, 8, 16, 32], [1]])
        value["fields"] = [[f"part_{at}", bits] for at, bits in enumerate(split)]
    names = [name for name, _ in value["fields"]]
    for machine in value["models"]:
        one, other = draw.choice(names), draw.choice(names)
        both = f"item({one}: now, {other}: fielded)" if one != other else f"item({one}: fielded - many)"
        if draw.random() < 0.3:
            machine["parameters"] = [*machine.get("parameters", []), "few"]
            for part in parts_of(value):
                if part.get("model") == machine["name"]:
                    part["few"] = draw.randint(1, 9)
        machine["registers"] = {**machine.get("registers", {}), "fielded": "many"}
        machine["queues"] = {**machine.get("queues", {}), "fields_kept": "few"}
        machine["words"] = [*machine["words"], "fielded", f"{one}(fielded) + few"][-64:]
        lines = [f"fielded = {both}", f"fielded ^= {one}(value) + {other}(-now)", "repeat few { fielded += turn * many }", f"push fields_kept {both}"]
        lines += [f"if {one}(front(fields_kept)) > few {{ pop fields_kept }} else {{ insert fields_kept {other}(fielded) }}"]
        for where, member in programs(machine):
            lead(where, member, draw.choice(lines), draw.choice(lines))
        for where in [machine, *machine.get("timers", [])]:
            for sent in where.get("output", []):
                if draw.random() < 0.5:
                    sent["value"] = draw.choice([f"item({one}: {sent['value']})", f"{other}({sent['value']})", f"{sent['value']} + item({one}: many)"])


def parts_of(model):
    """The components of a network that have a model, also those of coupled models."""
    for part in model["components"]:
        yield from parts_of(part) if "components" in part else [part]


def cleared(draw, machine):
    """A machine that clears a queue when its time is up, and sends the places of its values."""
    name, room = draw.choice(list(machine["queues"].items()))
    queue = f"{name}[{draw.choice(['0', '1', 'now % 3'])}]" if isinstance(room, list) else name
    lead(machine, "internal", f"if now % {draw.randint(2, 5)} == 0 {{ clear {queue} }}")
    sent = {"each": queue, "when": draw.choice(["turn != 1", "turn < 3"]), "port": "turn % 4", "value": "value - turn"}
    machine["output"] = [*machine.get("output", []), sent][-64:]


def drawn(draw, machine):
    """A machine that draws numbers besides, in statements and tests."""
    machine["tables"] = {**machine.get("tables", {}), "drawn_from": [draw.randint(-3, 9) for _ in range(draw.choice([1, 2, 7]))]}
    machine["registers"] = {**machine.get("registers", {}), "drawn": 0}
    machine["words"] = [*machine["words"], "drawn"][-64:]
    tests = ["sample(drawn_from) > 2", "roll(3)", "drawn % 2", "not roll(length(drawn_from))", "drawn > 9"]
    lines = ["drawn += sample(drawn_from)", "repeat 2 { drawn ^= roll(9) }", "draw", "drawn = 0", "drawn -= roll(drawn) * length(drawn_from)"]
    for where, member in programs(machine):
        chain = " else ".join(f"if {draw.choice(tests)} {{ {draw.choice(lines)} }}" for _ in range(draw.randint(1, 4)))
        chain += f" else {{ {draw.choice(lines)} }}" if draw.random() < 0.5 else ""
        lead(where, member, draw.choice(lines), chain)


def network(seed):
    """The network of a seed, and its end tick."""
    draw = random.Random(seed)
    return draw.choice([flat, flat, flat, nested, with_machines])(draw)


def places(value, at=()):
    """Each place in a JSON value."""
    yield at
    if isinstance(value, dict):
        for key in value:
            yield from places(value[key], (*at, key))
    elif isinstance(value, list):
        for key, one in enumerate(value):
            yield from places(one, (*at, key))


def put(value, at, other):
    """Puts another value at a place, or takes the place away."""
    if not at:
        return other
    inside = value
    for key in at[:-1]:
        inside = inside[key]
    if other is places:
        del inside[at[-1]]
    else:
        inside[at[-1]] = other
    return value


WORDS = ["draw ", " sample(t) ", " roll(3) ", " length(t) ", " observe a value ", " clear q ", " size(a) ", " item(size: 1, to: a) ", ":", " ways ", "(", ")", "[", "]", "{", "}", " if ", " else ", " repeat ", " + ", " * ", " / ", " % ", " - ", ":=", ";", "t[0]", "0", "9" * 20, "\u00e9", "\\", "\"", "a", ".", "tw-2", "in", " "]


def changed(draw, value):
    """A value with one to three things changed: a number, a name, a member taken away or put twice, a text."""
    for _ in range(draw.randint(1, 3)):
        at = draw.choice(list(places(value)))
        here = value
        for key in at:
            here = here[key]
        kind = draw.randrange(6)
        if kind == 0:
            value = put(value, at, draw.choice(BIG))
        elif kind == 1 and at:
            value = put(value, at, places)
        elif kind == 2 and isinstance(here, str):
            cut = draw.randint(0, len(here))
            value = put(value, at, here[:cut] + draw.choice(WORDS) * draw.choice([1, 1, 2, 70, 5000]) + here[cut:])
        elif kind == 3 and isinstance(here, list):
            value = put(value, at, here * draw.choice([0, 2, 20, 1100]))
        elif kind == 4:
            other = draw.choice(list(places(value)))
            there = value
            for key in other:
                there = there[key]
            value = put(value, at, json.loads(json.dumps(there)))
        else:
            value = put(value, at, draw.choice([None, True, "", "a", "a.b", [], {}, [[]], "x" * 100000]))
        if not isinstance(value, dict):
            return value
    return value


def broken(draw, text):
    """A text with bytes changed, taken away, put in, or cut."""
    data = bytearray(text)
    for _ in range(draw.randint(1, 4)):
        at = draw.randint(0, max(len(data) - 1, 0))
        kind = draw.randrange(5)
        if kind == 0 and data:
            data[at] = draw.randrange(256)
        elif kind == 1:
            del data[at : at + draw.choice([1, 1, 8, 99])]
        elif kind == 2:
            data[at:at] = bytes(draw.randrange(256) for _ in range(draw.choice([1, 2, 8])))
        elif kind == 3:
            data[at:at] = data[at : at + draw.choice([1, 8, 64])]
        else:
            del data[at:]
    return bytes(data)
