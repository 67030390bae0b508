# Other numbers by the line, --set and --seed-all: each command writes what it writes of a file that has these numbers, which
# tests/numbers.py makes, a program of its own. What cannot be set is refused by all of them before any other fault of the file.

# Runs a command on the network with these options, and on the changed network, and compares bytes, standard error and status.
with_numbers() {
    "$program" "$1" "$changed" "${@:2}" >"$room/whole" 2>"$room/said"
    status=$?
    "$program" "$1" "$network" "${@:2}" "${options[@]}" >"$out" 2>"$err"
    ended=$?
    cmp --silent "$out" "$room/whole" && cmp --silent "$err" "$room/said"
    count "twarp $1 $network ${*:2} ${options[*]}" "$status" "$ended" $?
}

mkdir -p "$room/numbers"
while read -r network until words; do
    read -ra options <<<"$words"
    changed=$room/numbers/$(basename "$network")
    python3 tests/numbers.py "$network" "${options[@]}" >"$changed" || echo "$network: no changed file"
    for command in check dot; do with_numbers "$command"; done
    with_numbers seq --until "$until"
    with_numbers run --until "$until" --workers 3 --burst 2
    with_numbers run --until "$until" --cancel lazy
    with_numbers stats --until "$until"
    with_numbers stats --until "$until" --json --from 2
    for rows in "" --items --words; do
        # shellcheck disable=SC2086 # no rows are no word
        with_numbers table --until "$until" $rows
    done
    with_numbers draw --until "$until"
    with_numbers draw --until "$until" --seed 7 --steps 50
    with_numbers play --until "$until" --seed 7 --steps 50
done <<NETWORKS
examples/gen-tally.json 9 --set g.period=3
examples/gen-tally.json 9 --set g.value=-9223372036854775808 --set g.period=1
examples/gen-tally.json 9 --seed-all 5
examples/two-lines.json 30 --set left.saw.service=4 --set right.press.service=1 --set orders.period=2
examples/relays-at-the-limit.json 5 --set a.delay=1
tests/eight-hops.json 40 --seed-all 1
tests/eight-hops.json 40 --seed-all 2
tests/eight-hops.json 40 --seed-all 0
examples/pool.json 40 --seed-all 3
examples/pool.json 40 --set desk.servers=1 --seed-all 18446
examples/polling.json 25 --seed-all 1
examples/inventory.json 40 --seed-all 2
examples/router.json 40 --seed-all 9
examples/token-ring.json 25 --seed-all 4
tests/program/machine-fields/network.json 30 --seed-all 4
NETWORKS

# Numbers of which another fault of the file comes: those of the changed file.
while read -r network words; do
    read -ra options <<<"$words"
    changed=$room/numbers/$(basename "$network")
    python3 tests/numbers.py "$network" "${options[@]}" >"$changed" || echo "$network: no changed file"
    with_numbers check
    with_numbers stats --until 5
    with_numbers seq --until 5
done <<NETWORKS
examples/gen-tally.json --set g.period=0
examples/gen-tally.json --set g.period=-1
examples/gen-tally.json --set g.period=1099511627775
examples/gen-tally.json --set g.value=9223372036854775808
examples/pool.json --set desk.servers=9223372036854775808
tests/three-hops.json --set c.ports=17
NETWORKS

# A replication is a mix of a mix: the numbers of SplitMix64 from 1234567 on, by its authors' own program.
printf '{"format": "tw-1", "micro_limit": 9, "components": [{"name": "h", "model": "hop", "seed": 1234567, "ports": 1, "spread": 1}], "couplings": [], "inputs": []}' >"$room/numbers/hop.json"
while read -r place seed; do
    sed "s/1234567/$seed/" "$room/numbers/hop.json" >"$room/numbers/mixed.json"
    "$program" seq "$room/numbers/mixed.json" --until 4 >"$room/whole" 2>"$room/said"
    "$program" seq "$room/numbers/hop.json" --until 4 --seed-all "$place" >"$out" 2>"$err"
    ended=$?
    cmp --silent "$out" "$room/whole" && [ -s "$out" ]
    count "replication $place of seed 1234567" 0 "$ended" $?
done <<SEEDS
0 1234567
1 6457827717110365317
2 3203168211198807973
3 9817491932198370423
4 4593380528125082431
5 16408922859458223821
SEEDS

# What cannot be set, in files that are at fault besides: 23 is first, behind 19 and 20.
printf '{"components": [{"name": "a", "model": "no", "x": 1, "list": [1], "text": "t"}, {"name": "c", "components": []}]}' >"$room/numbers/odd.json"
while read -r file words; do
    read -ra options <<<"$words"
    for command in check dot seq stats table draw run; do
        until=(--until 5)
        case $command in check | dot) until=() ;; esac
        "$program" "$command" "$room/numbers/$file" "${until[@]}" "${options[@]}" >"$out" 2>"$err"
        ended=$?
        [ "$(head -n 1 "$err")" = "twarp: 23 BadLine" ] && [ ! -s "$out" ]
        count "twarp $command $file $words" 2 "$ended" $?
    done
done <<LINES
odd.json --set a.y=1
odd.json --set b.x=1
odd.json --set a.list=1
odd.json --set a.name=1
odd.json --set a.model=1
odd.json --set c.name=1
odd.json --set a.x=1 --set a.z=1
odd.json --set a.x.y=1
odd.json --set .x=1
odd.json --set a.=1
LINES
"$program" seq "$room/numbers/odd.json" --until 5 --set a.x=2 --set a.text=3 --seed-all 4 >"$out" 2>"$err"
ended=$?
[ "$(<"$err")" = "twarp: 21 BadShape" ]
count "a file at fault, with numbers that can be set" 2 "$ended" $?
printf 'no json' >"$room/numbers/text.json"
"$program" seq "$room/numbers/text.json" --until 5 --set a.x=2 >"$out" 2>"$err"
ended=$?
[ "$(<"$err")" = "twarp: 20 NotJson" ]
count "no JSON, and a number" 2 "$ended" $?
"$program" seq "$room/numbers/none.json" --until 5 --set a.x=2 >"$out" 2>"$err"
ended=$?
[ "$(<"$err")" = "twarp: 19 Unreadable" ]
count "no file, and a number" 2 "$ended" $?
