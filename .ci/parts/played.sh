# Executives driven by seeds: whatever is drawn, what is committed is a beginning of the sequential simulator's trace, for both ways
# of cancelling, and global virtual time never falls; and by one seed at least it is the whole trace. What is refused is refused as no
# such component or place, or no step before the end (15, 16), and in a network that meets a limit as that limit (2, 3).

# Whether the stamps to which global virtual time was raised never fall; the end is after all others.
never_falls() {
    sed -n 's/^raised //p' "$1" | sed 's/^end$/2000000000000.0.0/' | tr . ' ' |
        awk '{ if ($1 < a || $1 == a && ($2 < b || $2 == b && $3 < c)) exit 1; a = $1; b = $2; c = $3 }'
}

# The networks, each with its end tick and how many actions are drawn.
while read -r network until steps; do
    "$program" seq "$network" --until "$until" >"$room/whole" 2>"$err"
    lines=$(grep -vc '^fault: ' "$room/whole")
    expected='^refused 1[5-9] '
    [ "$lines" -eq "$(wc -l <"$room/whole")" ] || expected='^refused \(1[5-9]\|[23]\) '
    most=0
    for cancel in aggressive lazy; do
        for seed in 0 1 2 3 4 5 6 7 8 9; do
            "$program" play "$network" --until "$until" --seed "$seed" --steps "$steps" --cancel "$cancel" >"$out" 2>"$err"
            ended=$?
            tail -n "+$((steps + 1))" "$out" >"$room/trace"
            committed=$(wc -l <"$room/trace")
            grep '^refused ' "$out" | grep -v "$expected" >"$room/refused"
            head -n "$committed" "$room/whole" | cmp --silent - "$room/trace" && [ ! -s "$room/refused" ] && never_falls "$out"
            count "$network by the seed $seed, $cancel" 0 "$ended" $?
            [ "$committed" -gt "$most" ] && most=$committed
        done
    done
    [ "$most" -eq "$lines" ]
    count "$network to its end by seeds" 0 0 $?
done <<NETWORKS
examples/gen-tally.json 9 2000
examples/a-row.json 10 2000
examples/two-lines.json 10 2000
examples/relays-at-the-limit.json 5 2000
examples/sixty-four-hops.json 3 16000
tests/program/two-gens/network.json 4 2000
tests/program/mutual-confluent/network.json 3 2000
tests/program/nested/network.json 3 2000
tests/program/nested-two-paths/network.json 3 2000
examples/ring-of-queues.json 16 4000
tests/three-hops.json 12 3000
examples/pool.json 12 8000
examples/router.json 8 12000
examples/inventory.json 12 6000
examples/lathe.json 30 8000
examples/token-ring.json 10 12000
examples/polling.json 8 12000
NETWORKS
