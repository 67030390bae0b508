# Runs by workers whose number, burst and window are drawn by seed, for both ways of cancelling: 2,600 of them, on nine networks, of which
# three have machines. Each
# writes the bytes of `seq` and ends as it does.

# Draws the next number below another; it is in `drawn`.
state=1
draw_below() {
    state=$(((state * 1103515245 + 12345) % 2147483648))
    drawn=$((state / 256 % $1))
}

while read -r network until many; do
    "$program" seq "$network" --until "$until" >"$room/whole" 2>"$err"
    status=$?
    bad=0
    for ((number = 0; number < many; number++)); do
        draw_below 8 && workers=$((drawn + 1))
        draw_below 256 && burst=$((drawn + 1))
        draw_below 1001 && window=$drawn
        draw_below 2 && cancel=$([ "$drawn" -eq 0 ] && echo aggressive || echo lazy)
        "$program" run "$network" --until "$until" --workers "$workers" --burst "$burst" --window "$window" \
            --cancel "$cancel" >"$out" 2>"$err"
        ended=$?
        [ "$ended" -eq "$status" ] && [ ! -s "$err" ] && cmp --silent "$out" "$room/whole" && continue
        bad=$((bad + 1))
        echo "$network by $workers, $burst, $window, $cancel: status $ended, or other bytes"
    done
    [ "$bad" -eq 0 ]
    count "$network by $many drawn settings" 0 0 $?
done <<NETWORKS
tests/program/two-gens/network.json 4 300
tests/program/microstep-fault/network.json 5 300
tests/program/mutual-confluent/network.json 3 300
examples/a-row.json 10 300
tests/program/full-queue/network.json 500 300
tests/eight-hops.json 60 500
examples/pool.json 40 200
examples/polling.json 25 200
examples/inventory.json 40 200
NETWORKS
