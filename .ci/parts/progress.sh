# How far a run is: lines on standard error, while what is written stays as it is.

# Whether each line on standard error but the last is one that tells how far a run until this tick is, there is one at least, neither
# the tick nor the records fall from line to line, and the last of these has records; and the last line of all tells what a run of so
# many records spent.
told() {
    sed '$d' "$err" >"$room/told"
    awk -v until="$1" '
        !/^twarp: tick [0-9]+ of [0-9]+, [0-9]+ records$/ { bad = 1 }
        { tick = $3 + 0; records = $6 + 0 }
        $5 + 0 != until || tick > until + 0 || tick < last_tick || records < last_records { bad = 1 }
        { last_tick = tick; last_records = records }
        END { exit bad || NR == 0 || last_records == 0 }
    ' "$room/told" && spent "$2"
}

# Whether the last line on standard error tells what a run of so many records spent.
spent() {
    tail -n 1 "$err" | grep -qxE "twarp: $1 records, (0\.[0-9]{3}|1\.000) of the steps useful, [0-9]+ rollbacks, workers slept [0-9]+ times and stepped back [0-9]+ times"
}

# A run of some seconds.
"$program" seq examples/sixty-four-hops.json --until 100000 >"$room/seq"
sha256sum <"$room/seq" >"$room/sum"
"$program" run examples/sixty-four-hops.json --until 100000 --progress >"$out" 2>"$err"
ended=$?
sha256sum <"$out" | cmp --silent - "$room/sum" && told 100000 "$(wc -l <"$room/seq")"
count "a run that tells how far it is" 0 "$ended" $?

# A run that does not last a second tells only what it spent, and one by workers of its own choice what it chose.
"$program" run examples/gen-tally.json --until 5 --progress >"$out" 2>"$err"
ended=$?
cmp --silent "$out" examples/gen-tally.trace && spent 6 && [ "$(wc -l <"$err")" -eq 1 ]
count "a short run that tells what it spent" 0 "$ended" $?
for network in gen-tally a-row sixty-four-hops pool; do
    "$program" seq "examples/$network.json" --until 1000 >"$room/seq"
    "$program" run "examples/$network.json" --until 1000 --workers auto --progress >"$out" 2>"$err"
    ended=$?
    cmp --silent "$out" "$room/seq" && head -n 1 "$err" | grep -qxE 'twarp: auto: (in order|[0-9]+ workers)'
    count "a run of $network by workers of its own choice" 0 "$ended" $?
done

if [ -c /dev/full ]; then
    # With a standard error that fails it tells nothing, and writes the same.
    "$program" run examples/sixty-four-hops.json --until 100000 --progress >"$out" 2>/dev/full
    ended=$?
    sha256sum <"$out" | cmp --silent - "$room/sum"
    count "a run that tells how far it is to a standard error that is full" 0 "$ended" $?
fi

# The sequential run, its figures and its table tell the same way. Where the run can meet a limit, its outcome is worked out first, with
# no record, so the tick falls once.
heard() {
    awk -v until="$1" '
        !/^twarp: tick [0-9]+ of [0-9]+, [0-9]+ records$/ { bad = 1 }
        { tick = $3 + 0; records = $6 + 0 }
        $5 + 0 != until || tick > until + 0 || records < last_records { bad = 1 }
        tick < last_tick { falls++ }
        { last_tick = tick; last_records = records }
        END { exit bad || NR == 0 || falls > 1 }
    ' "$err"
}
for line in seq stats "stats --json" "table --items" "table --figures"; do
    read -r job more <<<"$line"
    # shellcheck disable=SC2086 # a line is words
    "$program" "$job" examples/sixty-four-hops.json --until 1000000 $more | sha256sum >"$room/sum"
    # shellcheck disable=SC2086 # a line is words
    "$program" "$job" examples/sixty-four-hops.json --until 1000000 $more --progress 2>"$err" | sha256sum | cmp --silent - "$room/sum" && heard 1000000
    count "twarp $line tells how far it is" 0 0 $?
done
