"""numbers.py NET [--set COMPONENT.PARAMETER=VALUE].. [--seed-all S]: writes the network with other numbers, as docs/FORMATS.md says it.

It shares no code with the program.
"""
import json
import sys

GOLDEN = 0x9E3779B97F4A7C15
ALL = 2**64 - 1


def split_mix(seed, place):
    """The number of a place, from 1 on, that SplitMix64 gives from a seed (Steele, Lea and Flood 2014)."""
    state = seed & ALL
    for _ in range(place):
        state = (state + GOLDEN) & ALL
    z = state
    z = ((z ^ (z >> 30)) * 0xBF58476D1CE4E5B9) & ALL
    z = ((z ^ (z >> 27)) * 0x94D049BB133111EB) & ALL
    return z ^ (z >> 31)


def named(components, name):
    return next(c for c in components if c["name"] == name)


def assign(network, text):
    target, value = text.split("=")
    *path, parameter = target.split(".")
    component = network
    for name in path:
        component = named(component["components"], name)
    assert "model" in component and parameter not in ("name", "model", "components", "couplings")
    assert not isinstance(component[parameter], list)
    component[parameter] = int(value)


def reseed(network, component, place):
    for part in component.get("components", []):
        reseed(network, part, place)
    model = component.get("model")
    if model == "hop":
        component["seed"] = split_mix(component["seed"], place)
    machine = next((m for m in network.get("models", []) if m["name"] == model), {})
    seed = machine.get("random")
    if isinstance(seed, str) and seed in machine.get("parameters", []):
        number = split_mix(component[seed], place)
        component[seed] = number - 2**64 if number >= 2**63 else number


def main(path, *words):
    with open(path, encoding="utf-8") as file:
        network = json.load(file)
    pairs = list(zip(words[::2], words[1::2]))
    for option, value in pairs:
        if option == "--set":
            assign(network, value)
    for option, value in pairs:
        if option == "--seed-all" and value != "0":
            reseed(network, network, int(value))
    json.dump(network, sys.stdout)
    print()


main(*sys.argv[1:])
