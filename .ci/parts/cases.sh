# The cases of tests/program/. A case is a folder: args (a word a line), and what is wanted: stdout and stderr (none: nothing) and
# status (none: 0). A case of `seq` is run by workers too, by 1, 2 and 4 with both ways of cancelling, and with the settings below:
# bytes and status are the same.

# Numbers of workers, bursts and windows, each with a way of cancelling.
settings="1 16 1000 aggressive
1 16 1000 lazy
2 16 1000 aggressive
2 16 1000 lazy
4 16 1000 aggressive
4 16 1000 lazy
2 1 0 aggressive
4 256 1 lazy
64 16 0 lazy
64 1 1000 aggressive
auto 16 1000 aggressive"

# Runs a case by these words, and counts it by this name.
try_case() {
    (cd "$case" && exec "$program" "${@:2}" >"$out" 2>"$err")
    ended=$?
    same "$out" "$case/stdout" && same "$err" "$case/stderr"
    count "$1" "$status" "$ended" $?
}

for case in tests/program/*/; do
    mapfile -t words <"$case/args"
    status=$(cat "$case/status" 2>/dev/null || echo 0)
    try_case "${case%/}" "${words[@]}"
    [ "${words[0]:-}" = seq ] || continue
    while read -r workers burst window cancel; do
        try_case "${case%/} by $workers, $burst, $window, $cancel" run "${words[@]:1}" \
            --workers "$workers" --burst "$burst" --window "$window" --cancel "$cancel"
    done <<<"$settings"
done
