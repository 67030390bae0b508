# The wanted traces of tests/program/ and of examples/ are those of a second simulator, tests/reference/simulate.py, which shares no code
# with the program.

# Compares the second simulator's trace of a network with a wanted one: a file, or a sum.
refer() {
    python3 tests/reference/simulate.py "$1" "$2" >"$out" 2>"$err"
    ended=$?
    case $3 in
        sha256:*) echo "${3#sha256:}  $out" | sha256sum --check --status ;;
        *) same "$out" "$3" ;;
    esac
    count "tests/reference/simulate.py on $1" 0 "$ended" $?
}

for case in tests/program/*/; do
    mapfile -t words <"$case/args"
    # (what a file without a fault gives, by a line that only names it and its end)
    [[ ${words[0]:-} == seq && ${#words[@]} -eq 4 && ${words[2]} == --until && -s $case/stdout ]] || continue
    refer "$case/${words[1]}" "${words[3]}" "$case/stdout"
done
while read -r network until _ expected; do
    case $network in '' | '#'*) continue ;; esac
    [[ $expected == sha256:* ]] || expected=examples/$expected
    refer "examples/$network" "$until" "$expected"
done <examples/runs.txt
