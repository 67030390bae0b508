# The words behind the line of a refusal: the table tests/words.txt has commands, and what standard error then has to the byte.

explained=
lines=

# Counts the command of the table that came last.
count_words() {
    [ -n "$explained" ] || return 0
    # shellcheck disable=SC2086 # a line is words
    if [[ $explained == "TWARP_EXPLAIN "* ]]; then
        TWARP_EXPLAIN=1 "$program" ${explained#TWARP_EXPLAIN } >"$out" 2>"$err"
    else
        "$program" $explained >"$out" 2>"$err"
    fi
    ended=$?
    [ "$(<"$err")" = "$(printf '%b' "$lines")" ]
    count "twarp $explained" 2 "$ended" $?
}

while IFS= read -r line; do
    case $line in
        '#'* | '') ;;
        '>'*)
            words=${line#>}
            lines+="${words# }\n"
            ;;
        *)
            count_words
            explained=$line
            lines=
            ;;
    esac
done <tests/words.txt
count_words
explained=
