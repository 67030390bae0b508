# Each request for memory refused in its turn, by tests/refuse.c before the C library, while a program makes each call that takes
# memory until it stands (crates/tw_test_core_refusals, crates/tw_test_run_refusals): it must write the bytes that it writes undisturbed, with
# status 0. Left out where no C compiler is.

# Runs a program with every so manyth of its requests refused, from one on, and tells each run that is not as it should be.
refuse_some() {
    local runner=$1 first=$2 step=$3 own=$room/growth.$2 number
    for ((number = first; number <= requests; number += step)); do
        (cd "$room" && exec timeout 60 env LD_PRELOAD="$room/refuse.so" "REFUSE_REQUEST=$number" "$runner" >"$own" 2>"$own.err")
        ended=$?
        if [ "$ended" -ne 0 ] || ! cmp --silent "$own" "$wanted"; then
            echo "$runner, REFUSE_REQUEST=$number: status $ended, $(diff "$own" "$wanted" | sed -n 2p)" >>"$room/growths.bad"
        fi
    done
}

if cc -shared -fPIC -O1 -o "$room/refuse.so" tests/refuse.c 2>"$err"; then
    side_by_side=$(nproc)
    for name in tw_test_core_refusals tw_test_run_refusals; do
        runner=$PWD/crates/$name/out/$name
        wanted=$PWD/crates/$name/stdout
        (cd "$room" && exec env LD_PRELOAD="$room/refuse.so" "COUNT_TO=$room/counts" "$runner" >"$out" 2>"$err")
        ended=$?
        cmp --silent "$out" "$wanted"
        count "$name undisturbed" 0 "$ended" $?
        requests=0
        [ "$ended" -ne 0 ] || read -r requests _ < <(od -An -t d8 -w24 "$room/counts")
        : >"$room/growths.bad"
        for ((first = 1; first <= side_by_side; first++)); do
            refuse_some "$runner" "$first" "$side_by_side" &
        done
        wait
        cat "$room/growths.bad"
        [ "$requests" -gt 0 ] && [ ! -s "$room/growths.bad" ]
        count "$name with each of $requests requests refused" 0 0 $?
    done
fi
