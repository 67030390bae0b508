#!/usr/bin/env python3
"""random.py PROGRAM: whether the random numbers of machines are what docs/MACHINES.md says, and whether near seeds give streams that are
independent. Prints a line for each check that fails, and 'N passed, M failed'.

A thousand machines with the seeds 0 to 999, and a hundred with the seeds 1,000 to 1,099, draw eight numbers each. Wanted are the numbers
of simulate.py beside this file (which is held here against published numbers of SplitMix64 and PCG32), and of each draw: a correlation
below 0.1 in size with the same draw of the next seed and of the seed that is 100 higher, and with the seed's own next draw; a mean and a
spread as independent numbers have them; and even shares of sixteen cells (chi-square with 15 degrees of freedom, below 37.7, which 999 of
1,000 good blocks are). The seeds are fixed, so the result is.
"""
import json
import math
import os
import subprocess
import sys
import tempfile

sys.path.insert(0, os.path.dirname(os.path.abspath(__file__)))
from simulate import mixed, permuted, stepped

SEEDS, DRAWS, CELLS = 1100, 8, 16
passed = failed = 0


def check(holds, what):
    global passed, failed
    passed, failed = passed + bool(holds), failed + (not holds)
    if not holds:
        print(what)


def drawn(program, seeds):
    """The first numbers of these seeds, and of `random(1000)` beside them, as the program makes them."""
    machine = {
        "name": "dice", "parameters": ["seed"], "random": "seed", "registers": {"whole": 0, "below": 0}, "first": 1,
        "internal": "whole = random; below = random(1000); draw; wait 1", "words": ["whole", "below"],
    }
    net = {
        "format": "tw-3", "micro_limit": 1, "models": [machine], "couplings": [], "inputs": [],
        "components": [{"name": f"d{seed}", "model": "dice", "seed": seed} for seed in seeds],
    }
    with tempfile.NamedTemporaryFile("w", suffix=".json") as file:
        json.dump(net, file)
        file.flush()
        ran = subprocess.run([program, "table", file.name, "--until", str(DRAWS + 1)], stdout=subprocess.PIPE, check=True, text=True)
    streams = {seed: [] for seed in seeds}
    for line in ran.stdout.splitlines()[1:]:
        _, _, name, kind, _, words = line.split(",")
        if kind == "int":
            streams[int(name[1:])].append(tuple(map(int, words.split())))
    return [streams[seed] for seed in seeds]


def correlation(xs, ys):
    x, y = sum(xs) / len(xs), sum(ys) / len(ys)
    both = sum((a - x) * (b - y) for a, b in zip(xs, ys))
    return both / math.sqrt(sum((a - x) ** 2 for a in xs) * sum((b - y) ** 2 for b in ys))


def known(seed):
    x, numbers = mixed(seed), []
    for _ in range(DRAWS):
        numbers.append((permuted(x), permuted(x) * 1000 >> 32))
        x = stepped(x)
    return numbers


def published():
    """The first number of SplitMix64 from 0, and the first six of pcg32 with the state 42 and the stream 54 (pcg-random.org's demonstration)."""
    check(mixed(0) == 0xE220A8397B1DCDAF, "SplitMix64 of 0")
    increment, mask = 54 << 1 | 1, 2**64 - 1
    step = lambda x: (x * 6364136223846793005 + increment) & mask
    x, numbers = step((step(0) + 42) & mask), []
    for _ in range(6):
        numbers.append(permuted(x))
        x = step(x)
    check(numbers == [0xA15C02B7, 0x7B47F409, 0xBA1D3330, 0x83D2F293, 0xBFA4784B, 0xCBED606E], "PCG32 from 42 and 54")


def main():
    published()
    streams = drawn(sys.argv[1], range(1000)) + drawn(sys.argv[1], range(1000, SEEDS))
    for seed, stream in enumerate(streams):
        check(stream == known(seed), f"the numbers of seed {seed}")
    parts = [[stream[draw][0] / 2**32 for stream in streams] for draw in range(DRAWS)]
    for draw, all_seeds in enumerate(parts):
        here = all_seeds[:1000]
        for distance in (1, 100):
            found = correlation(here, all_seeds[distance : 1000 + distance])
            check(abs(found) < 0.1, f"draw {draw + 1}: a correlation of {found:.3f} with the seed that is {distance} higher")
        if draw + 1 < DRAWS:
            found = correlation(here, parts[draw + 1][:1000])
            check(abs(found) < 0.1, f"draw {draw + 1}: a correlation of {found:.3f} with the next draw")
        mean = sum(here) / 1000
        spread = math.sqrt(sum((it - mean) ** 2 for it in here) / 999)
        check(abs(mean - 0.5) < 3.3 * math.sqrt(1 / 12 / 1000), f"draw {draw + 1}: a mean of {mean:.3f}")
        check(abs(spread - math.sqrt(1 / 12)) < 3.3 * math.sqrt(1 / 180 / 1000) / 2 / math.sqrt(1 / 12), f"draw {draw + 1}: a spread of {spread:.3f}")
        cells = [0] * CELLS
        for it in here:
            cells[int(it * CELLS)] += 1
        square = sum((it - 1000 / CELLS) ** 2 for it in cells) * CELLS / 1000
        check(square < 37.7, f"draw {draw + 1}: a chi-square of {square:.1f}")
    print(f"{passed} passed, {failed} failed")
    sys.exit(failed > 0)


main()
