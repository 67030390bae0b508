# Command lines that are refused, lines that ask for help, and scripts that are refused: the tables of tests/.

while IFS= read -r line; do
    case $line in '#'*) continue ;; esac
    # shellcheck disable=SC2086 # a line is words
    "$program" $line >"$out" 2>"$err"
    ended=$?
    [[ ! -s $out && $(head -n 1 "$err") == "twarp: 23 BadLine" ]]
    count "twarp $line" 2 "$ended" $?
done <tests/lines.txt

while IFS= read -r line; do
    case $line in
        '#'*) ;;
        '> '*)
            grep -qF -e "${line#> }" "$out"
            count "twarp $asked: ${line#> }" 0 "$ended" $?
            ;;
        *)
            asked=$line
            # shellcheck disable=SC2086 # a line is words
            "$program" $line >"$out" 2>"$err"
            ended=$?
            [ ! -s "$err" ]
            count "twarp $line" 0 "$ended" $?
            ;;
    esac
done <tests/helps.txt

while IFS= read -r line; do
    case $line in '#'*) continue ;; esac
    printf '%b' "${line#* }" >"$room/script.txt"
    "$program" play examples/a-row.json --until 10 --script "$room/script.txt" >"$out" 2>"$err"
    ended=$?
    [[ ! -s $out && $(<"$err") == "twarp: 22 BadScript line ${line%% *}" ]]
    count "the script ${line#* }" 2 "$ended" $?
done <tests/scripts.txt
