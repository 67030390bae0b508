# The networks of examples/, one step after another and by workers: 1, 2 and 4, with both ways of cancelling.

# Whether these are the bytes that are wanted of a network of examples/: a file there, or a sum.
wanted() {
    case $1 in
        sha256:*) echo "${1#sha256:}  $out" | sha256sum --check --status ;;
        *) same "$out" "examples/$1" ;;
    esac
}

while read -r network until status expected; do
    case $network in '' | '#'*) continue ;; esac
    "$program" seq "examples/$network" --until "$until" >"$out" 2>"$err"
    ended=$?
    wanted "$expected"
    count "examples/$network" "$status" "$ended" $?
    for workers in 1 2 4; do
        for cancel in aggressive lazy; do
            "$program" run "examples/$network" --until "$until" --workers "$workers" --cancel "$cancel" >"$out" 2>"$err"
            ended=$?
            wanted "$expected"
            count "examples/$network by $workers, $cancel" "$status" "$ended" $?
        done
    done
done <examples/runs.txt

# Each network of the folder stands in that list.
for network in examples/*.json; do
    grep -q "^${network#examples/} " examples/runs.txt
    count "$network in examples/runs.txt" 0 0 $?
done

# Nothing is odd about an example, or a network of the Python package's library.
for network in examples/*.json python/src/twarp/library/*.json; do
    "$program" check "$network" --strict >"$out" 2>"$err"
    ended=$?
    [[ $(<"$out") =~ ^ok:\ [^$'\n']*$ ]] && [ ! -s "$err" ]
    count "twarp check $network --strict" 0 "$ended" $?
done
