#!/usr/bin/env python3
"""fields.py NETWORK: a table of items, from standard input, with a column for each of the network's fields behind `value`: what
`twarp table --items` writes."""
import json
import os
import sys

sys.path.insert(0, os.path.join(os.path.dirname(os.path.abspath(__file__)), "..", "reference"))
from simulate import places_of

with open(sys.argv[1], encoding="utf-8") as file:
    places = places_of(json.load(file).get("fields", []))
head, *rows = sys.stdin.read().splitlines()
print(",".join([head, *places]))
for row in rows:
    value = int(row.split(",")[-1])
    print(",".join([row, *(str(value // one % count) for one, count in places.values())]))
