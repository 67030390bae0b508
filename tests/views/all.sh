#!/usr/bin/env bash
# Writes the files of wanted counts and figures: beside each case of `seq` in tests/program/ that writes a trace, and here for the
# networks of examples/. The traces that it reads are the wanted ones there; one that is wanted by its sum alone is made by the program
# whose path is given, and has that sum.
set -u
program=${1:?the path of the built program}
cd "$(dirname "$0")/../.." || exit 1
room=$(mktemp)
made=$(mktemp)
trap 'rm -f "$room" "$made"' EXIT

# Counts and figures of a network, and a trace, until a tick: to files with these beginnings.
tell() {
    python3 tests/views/expected.py "$1" "$2" "$3" >"$room" && cp "$room" "$4" || return
    python3 tests/views/expected.py "$1" "$2" "$3" --json >"$4.json"
}

for case in tests/program/*/; do
    mapfile -t words <"$case/args"
    [ "${words[0]:-}" = seq ] && [ -e "$case/${words[1]:-}" ] && [ ! -e "$case/stderr" ] || continue
    trace=$case/stdout
    [ -e "$trace" ] || trace=/dev/null
    tell "$case/${words[1]}" "$trace" "${words[3]}" "$case/stats"
done
while read -r network until _ expected; do
    case $network in '' | '#'*) continue ;; esac
    trace=examples/$expected
    if [[ $expected == sha256:* ]]; then
        "$program" seq "examples/$network" --until "$until" >"$made"
        echo "${expected#sha256:}  $made" | sha256sum --check --status || continue
        trace=$made
    fi
    tell "examples/$network" "$trace" "$until" "tests/views/${network%.json}.stats"
done <examples/runs.txt
