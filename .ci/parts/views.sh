# Counts, figures and tables of the cases of `seq` in tests/program/ and of the networks of examples/. The wanted counts and figures
# are the files stats and stats.json there and in tests/views/, which tests/views/expected.py made of the wanted traces; those from a
# tick on, and the wanted tables, are made here of the same traces. Workers write the same bytes, whatever their setting.

# The table of a trace: of its records, its items or its words.
as_table() {
    awk -v rows="$1" '
        BEGIN {
            head = "tick,microstep,component,kind,"
            print head (rows == "records" ? "items,words" : rows == "items" ? "port,value" : "place,number")
        }
        /^fault: / { next }
        {
            bar = index($0, " |")
            count = split(bar ? substr($0, 1, bar - 1) : $0, part, " ")
            if (part[4] == "-") count = 3 # a bag without items
            words = bar ? substr($0, bar + 3) : ""
            split(part[1], at, ".")
            cells = at[1] "," at[2] "," part[2] "," part[3] ","
            if (rows == "records") {
                items = ""
                for (i = 4; i <= count; i++) items = items (i > 4 ? " " : "") part[i]
                print cells items "," words
            } else if (rows == "items") {
                for (i = 4; i <= count; i++) { split(part[i], item, "="); print cells item[1] "," item[2] }
            } else {
                many = split(words, word, " ")
                for (i = 1; i <= many; i++) print cells (i - 1) "," word[i]
            }
        }' | with_fields "$1"
}

# A table as it is; of items, where the network has fields, with their columns.
with_fields() {
    if [ "$1" = items ] && grep -q '"fields"' "$network"; then python3 tests/views/fields.py "$network"; else cat; fi
}

# Runs a view of a network, and compares what it writes with a file, and its standard error with the fault of the trace.
view() {
    "$program" "$1" "$network" --until "$until" "${@:3}" >"$out" 2>"$err"
    ended=$?
    same "$out" "$2" && same "$err" "$room/fault"
    count "twarp $1 ${*:3} of $network" "$status" "$ended" $?
}

# Counts and figures from the middle of a run of that trace on, from its start, and from its end.
views_from() {
    local from
    for from in $((until / 2)) 0 "$until"; do
        python3 tests/views/expected.py "$network" "$1" "$until" --from "$from" >"$room/from"
        view stats "$room/from" --from "$from"
    done
    from=$((until / 2))
    python3 tests/views/expected.py "$network" "$1" "$until" --from "$from" --json >"$room/from"
    view stats "$room/from" --json --from "$from"
}

# Counts and figures of every second component, and the table of the figures: of all from the start, of those from the middle on.
views_of_some() {
    local only from=$((until / 2))
    python3 tests/views/expected.py "$network" "$1" "$until" --figures >"$room/some"
    view table "$room/some" --figures
    view table "$room/some" --figures --workers 2 --burst 1
    only=$(python3 -c 'import json, sys; print(",".join(it["name"] for it in json.load(sys.stdin)["components"][::-2]))' <"$2")
    [ -n "$only" ] || return 0
    python3 tests/views/expected.py "$network" "$1" "$until" --only "$only" >"$room/some"
    view stats "$room/some" --only "$only"
    python3 tests/views/expected.py "$network" "$1" "$until" --only "$only" --json --from "$from" >"$room/some"
    view stats "$room/some" --only "$only" --json --from "$from"
    view stats "$room/some" --only "$only" --json --from "$from" --workers auto
    python3 tests/views/expected.py "$network" "$1" "$until" --figures --from "$from" --only "$only" >"$room/some"
    view table "$room/some" --figures --from "$from" --only "$only"
    view table "$room/some" --figures --from "$from" --only "$only" --workers 4 --window 3
    awk -v only=",$only," '/^fault: / || index(only, "," $2 ",")' "$1" | as_table items >"$room/some"
    view table "$room/some" --items --only "$only"
    view table "$room/some" --items --only "$only" --workers 3
}

# Counts and figures, and the table of the records, by 1, 2 and 4 workers who cancel either way.
views_by_workers() {
    local workers cancel
    for workers in 1 2 4; do
        for cancel in aggressive lazy; do
            [ ! -e "$1" ] || view stats "$1" --workers "$workers" --cancel "$cancel"
            view table "$2" --workers "$workers" --cancel "$cancel" --burst 3
        done
    done
}

# All views of a network of which there is a trace, and counts and figures where these files are there.
views() {
    grep '^fault: ' "$1" >"$room/fault"
    status=0
    [ ! -s "$room/fault" ] || status=3
    if [ -e "$2" ]; then
        view stats "$2"
        view stats "$3" --json
    fi
    [ ! -e "$2" ] || views_from "$1"
    [ ! -e "$2" ] || views_of_some "$1" "$3"
    awk -F. -v from="$((until / 2))" '/^fault: / || $1 + 0 >= from' "$1" | as_table items >"$room/table"
    view table "$room/table" --items --from "$((until / 2))"
    as_table records <"$1" >"$room/table"
    views_by_workers "$2" "$room/table"
    for rows in records items words; do
        as_table "$rows" <"$1" >"$room/table"
        if [ "$rows" = records ]; then view table "$room/table"; else view table "$room/table" "--$rows"; fi
    done
}

for case in tests/program/*/; do
    mapfile -t words <"$case/args"
    network=$case${words[1]:-}
    [ "${words[0]:-}" = seq ] && [ -e "$network" ] && [ ! -e "$case/stderr" ] || continue
    until=${words[3]}
    trace=$case/stdout
    [ -e "$trace" ] || trace=/dev/null
    views "$trace" "$case/stats" "$case/stats.json"
done

# A trace that is wanted by its sum alone is made by `seq`, and has that sum.
while read -r network until _ expected; do
    case $network in '' | '#'*) continue ;; esac
    name=tests/views/${network%.json}
    trace=examples/$expected
    network=examples/$network
    if [[ $expected == sha256:* ]]; then
        trace=$room/trace
        "$program" seq "$network" --until "$until" >"$trace"
        echo "${expected#sha256:}  $trace" | sha256sum --check --status
        count "the trace of $network" 0 $? 0
    fi
    views "$trace" "$name.stats" "$name.stats.json"
done <examples/runs.txt

# A file that is not there, one that is no JSON, and a script that is not there.
for line in stats "stats --only a" "stats --workers 2" table "table --items" "table --figures" "table --workers 2" "table --figures --workers 2" draw "draw --seed 1 --steps 9" "draw --script examples/straggler.txt"; do
    read -r job more <<<"$line"
    # shellcheck disable=SC2086 # a line is words
    "$program" "$job" nowhere.json --until 5 $more >"$out" 2>"$err"
    ended=$?
    [[ ! -s $out && $(head -n 1 "$err") == "twarp: 19 Unreadable" ]]
    count "twarp $line of a file that is not there" 2 "$ended" $?
    # shellcheck disable=SC2086 # a line is words
    "$program" "$job" examples/straggler.txt --until 5 $more >"$out" 2>"$err"
    ended=$?
    [[ ! -s $out && $(head -n 1 "$err") == "twarp: 20 NotJson" ]]
    count "twarp $line of a file that is no JSON" 2 "$ended" $?
done
"$program" draw examples/a-row.json --until 10 --script nowhere.txt >"$out" 2>"$err"
ended=$?
[[ ! -s $out && $(head -n 1 "$err") == "twarp: 19 Unreadable" ]]
count "twarp draw by a script that is not there" 2 "$ended" $?
