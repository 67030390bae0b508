# Each request for memory refused in its turn, alone and with all that come later; each write and each read; reads and writes of one
# byte, and of these each in its turn: by tests/refuse.c, which stands before the C library. Refused memory gives the whole output, or
# status 4 with a beginning of it (of `play` with at most one reply more, that the action was refused). A byte that cannot be written
# has all those before it written; one that cannot be read leaves nothing written. Left out where no C compiler is.

# Whether what was written is a beginning of a file, but for a last reply that memory was refused.
is_beginning() {
    sed '$ { /^refused 4 OutOfMemory$/d }' "$out" >"$room/begun"
    head -c "$(wc -c <"$room/begun")" "$1" | cmp --silent - "$room/begun"
}

# Runs the program in a case's folder by these words, with a variable of tests/refuse.c set, and others that stand in $also.
also=()
with_refused() {
    (cd "$case" && exec timeout 60 env LD_PRELOAD="$room/refuse.so" "${also[@]}" "$1=$2" "$program" "${@:3}" >"$out" 2>"$err")
    ended=$?
}

# Counts the requests, writes and reads of a case that runs by these words.
count_calls() {
    with_refused COUNT_TO "$room/counts" "$@"
    read -r requests writes reads < <(od -An -t d8 -w24 "$room/counts")
}

# Refuses each of a kind while a case runs by these words: the variable, how many there are, the status and the line of a refusal.
refuse_each() {
    local kind=$1 many=$2 refusal=$3 line=$4 bad=0
    for ((number = 1; number <= many; number++)); do
        with_refused "$kind" "$number" "${@:5}"
        [ "$ended" -eq "$status" ] && cmp --silent "$out" "$case/stdout" && continue
        [ "$ended" -eq "$refusal" ] && [ "$(cat "$err")" = "$line" ] && is_beginning "$case/stdout" && continue
        bad=$((bad + 1))
        echo "${*:5}, $kind=$number: status $ended, $(tail -n 1 "$err")"
    done
    [ "$bad" -eq 0 ]
    count "${*:5} with each of $many $kind" 0 0 $?
}

# Whether the case ended with this status and line, and wrote this text.
is_cut() {
    local written
    IFS= read -r -d '' written <"$out"
    [[ $ended -eq $1 && $(<"$err") == "$2" && $written == "$3" ]]
}

# Refuses each byte that the case writes, and each that it reads, while it runs by these words.
refuse_each_byte() {
    local LC_ALL=C bad=0 wanted told=0 word
    IFS= read -r -d '' wanted <"$case/stdout"
    also=(ONE_BYTE=1)
    count_calls "$@"
    # Each byte of a file that is named, and its end.
    for word in "$@"; do
        [ ! -f "$case/$word" ] || told=$((told + $(wc -c <"$case/$word") + 1))
    done
    [[ $writes -eq ${#wanted} && $reads -eq $told ]] || bad=1
    for ((number = 1; number <= writes; number++)); do
        with_refused REFUSE_WRITE "$number" "$@"
        is_cut 5 "twarp: 24 WriteFailed" "${wanted:0:number-1}" || bad=$((bad + 1))
    done
    for ((number = 1; number <= reads; number++)); do
        with_refused REFUSE_READ "$number" "$@"
        is_cut 2 "twarp: 19 Unreadable" "" || bad=$((bad + 1))
    done
    also=()
    [ "$bad" -eq 0 ]
    count "$* with each of $writes bytes written and $reads read" 0 0 $?
}

if cc -shared -fPIC -O1 -o "$room/refuse.so" tests/refuse.c 2>"$err"; then
    # Cases of our own stand in a room of the same layout, where the networks that cases share are found.
    ours=$room/tests/program
    mkdir -p "$ours"
    ln -s "$PWD/examples" "$room/examples"
    ln -s "$PWD"/tests/program/* "$ours"
    # Figures of machines, which are known.
    cp -r tests/program/machine-tally "$ours/machine-tally-told"
    sed -i '1s/.*/stats/' "$ours/machine-tally-told/args"
    cp tests/program/machine-tally/stats "$ours/machine-tally-told/stdout"
    # Pictures of runs and one of Time Warp, and machines played: what is wanted of them is what they are with nothing refused.
    while read -r case name job more; do
        cp -r "tests/program/$case" "$ours/$name"
        sed -i "1s/.*/$job/" "$ours/$name/args"
        # shellcheck disable=SC2086 # the rest of a line is words
        [ -z "$more" ] || printf '%s\n' $more >>"$ours/$name/args"
        mapfile -t words <"$ours/$name/args"
        (cd "$ours/$name" && exec "$program" "${words[@]}" >stdout)
    done <<<"gen-tally gen-tally-drawn draw
machine-tally machine-tally-drawn draw
straggler-of-three straggler-of-three-drawn draw
machine-tally machine-tally-played play --seed 1 --steps 40"
    for case in $PWD/tests/program/{gen-tally,microstep-fault,mutual-confluent,straggler-of-three,nested,check-whole,demonstration,numbers-of-gen-tally} \
        $PWD/tests/program/{figures-of-gen-tally,graph-of-gen-tally,items-of-a-microstep-fault,a-seed,machine-tally,check-machine-misspelt,check-warns-two-waits,check-strict} \
        "$ours"/machine-tally-{told,played} "$ours"/{gen-tally,machine-tally,straggler-of-three}-drawn; do
        mapfile -t words <"$case/args"
        status=$(cat "$case/status" 2>/dev/null || echo 0)
        lines=("${words[*]}")
        [ "${words[0]}" = seq ] && lines+=("run ${words[*]:1} --workers 1" "run ${words[*]:1} --workers 2 --cancel lazy")
        [[ ${words[0]} =~ ^(stats|table)$ ]] && lines+=("${words[*]} --workers 1" "${words[*]} --workers 2 --cancel lazy")
        for line in "${lines[@]}"; do
            # shellcheck disable=SC2206 # a line is words
            words=($line)
            count_calls "${words[@]}"
            refuse_each REFUSE_REQUEST "$requests" 4 "twarp: 4 OutOfMemory" "${words[@]}"
            refuse_each REFUSE_FROM "$requests" 4 "twarp: 4 OutOfMemory" "${words[@]}"
            refuse_each REFUSE_WRITE "$writes" 5 "twarp: 24 WriteFailed" "${words[@]}"
            refuse_each REFUSE_READ "$reads" 2 "twarp: 19 Unreadable" "${words[@]}"
            with_refused ONE_BYTE 1 "${words[@]}"
            cmp --silent "$out" "$case/stdout"
            count "$line by single bytes" "$status" "$ended" $?
        done
    done
    # A job of each kind: what it reads is nothing, a network, or a network and a script.
    cp -r tests/program/figures-of-gen-tally "$ours/figures-as-json"
    cp tests/program/gen-tally/stats.json "$ours/figures-as-json/stdout"
    echo --json >>"$ours/figures-as-json/args"
    for case in $PWD/tests/program/{demonstration,check-whole,graph-of-gen-tally,check-comma-forgotten,gen-tally,items-of-a-microstep-fault,changes-of-a-machine} \
        "$ours"/{figures-as-json,gen-tally-drawn} $PWD/tests/program/{all-of-tick-2-committed,a-seed}; do
        mapfile -t words <"$case/args"
        refuse_each_byte "${words[@]}"
        [ "${words[0]}" != seq ] || refuse_each_byte run "${words[@]:1}" --workers 2
        [[ ! ${words[0]} =~ ^(stats|table)$ ]] || refuse_each_byte "${words[@]}" --workers 2
    done
    # Of a network that is refused no script is read.
    for case in $PWD/tests/program/network-before-script $PWD/tests/program/shape-before-unreadable-script; do
        mapfile -t words <"$case/args"
        count_calls check network.json
        before=$reads
        count_calls "${words[@]}"
        [ "$reads" -eq "$before" ]
        count "${case##*/} reads the network alone" 2 "$ended" $?
    done
fi
