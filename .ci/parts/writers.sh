# A standard output that is full, and one that nobody reads.

if [ -c /dev/full ]; then
    for line in demo "check examples/gen-tally.json" "seq examples/gen-tally.json --until 5" "run examples/gen-tally.json --until 5" \
        "stats examples/gen-tally.json --until 5" "table examples/gen-tally.json --until 5" "table examples/gen-tally.json --until 5 --figures" "draw examples/gen-tally.json --until 5" \
        "draw examples/a-row.json --until 10 --script examples/straggler.txt" \
        "play examples/a-row.json --until 10 --script examples/straggler.txt" "play examples/a-row.json --until 10 --seed 1 --steps 9" \
        --help --version "seq --help"; do
        # shellcheck disable=SC2086 # a line is words
        "$program" $line 2>"$err" >/dev/full
        ended=$?
        [ "$(cat "$err")" = "twarp: 24 WriteFailed" ]
        count "twarp $line on a standard output that is full" 5 "$ended" $?
    done
fi

# The other end of the pipe is closed before the program writes.
{
    sleep 1
    "$program" demo 2>"$err"
    echo $? >"$out"
} | exec true
ended=$(cat "$out")
[ "$(cat "$err")" = "twarp: 24 WriteFailed" ]
count "a pipe that is closed" 5 "$ended" $?
