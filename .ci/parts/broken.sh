# Files that are cut at every byte, or have one byte set to 0 or to 255: of a network none is JSON then (no beginning of an object is,
# the byte 0 stands in no JSON text, and 255 in no UTF-8), and of a script the line is named where it is cut or changed, unless nothing
# of that line is left, or a whole command (`show` is one, without a component too).
# Files with machines also with an @ at bytes of their machines: outside a text the file is no JSON then (20), and in a text it is at fault
# (21), since no name, no member and no word of the language has it, but in a comment; and with a byte taken out: such a file is good, or
# is refused by a number, by `check` and by `seq` alike.

file=$room/net.json
script=$room/script.txt

# Counts how `check` ends on a network's file that is no JSON: refused by 20, with one line of words.
count_no_json() {
    "$program" check "$file" >"$out" 2>"$err"
    ended=$?
    [[ $(<"$err") == "twarp: 20 NotJson" && $(wc -l <"$out") -eq 1 ]]
    count "$1" 2 "$ended" $?
}

# Counts how a script ends that is at fault in this line, or in none.
count_script() {
    "$program" play examples/a-row.json --until 10 --script "$script" >"$out" 2>"$err"
    ended=$?
    if [ "$2" -eq 0 ]; then
        [ ! -s "$err" ]
        count "$1" 0 "$ended" $?
    else
        [[ ! -s $out && $(<"$err") == "twarp: 22 BadScript line $2" ]]
        count "$1" 2 "$ended" $?
    fi
}

# Writes a file with one byte set to another, which is said in octal.
with_byte() {
    head -c "$2" "$1" && printf "%b" "\\0$3" && tail -c "+$(($2 + 2))" "$1"
}

whole=$room/whole
for net in examples/a-row.json tests/program/{gen-tally,coupled-to-itself,nested,machine-tally}/network.json; do
    printf '%s' "$(<"$net")" >"$whole"
    length=$(wc -c <"$whole")
    for ((place = 0; place < length; place++)); do
        head -c "$place" "$whole" >"$file"
        count_no_json "$net cut at $place"
        for byte in 000 377; do
            with_byte "$whole" "$place" "$byte" >"$file"
            count_no_json "$net with the byte $byte at $place"
        done
    done
done

# Counts how `check` and `seq` end on a file: alike, good (0) or refused, with the number that is wanted if one is said.
count_fault() {
    "$program" check "$file" >"$out" 2>"$err"
    ended=$?
    said=$(<"$err")
    lines=$(wc -l <"$out")
    "$program" seq "$file" --until 1 >"$out" 2>"$err"
    simulated=$?
    case $ended in
        0) [[ ${2:-0} -eq 0 && -z $said && $lines -eq 1 && ($simulated -eq 0 || $simulated -eq 3) && ! -s $err ]] ;;
        2) [[ $said =~ ^"twarp: ${2:-}"[0-9]*\ [A-Za-z]+$ && $lines -eq 1 && $simulated -eq 2 && $(<"$err") == "$said" && ! -s $out ]] ;;
        *) false ;;
    esac
    count "$1" 0 0 $?
}

for net in examples/{inventory,lathe,polling,pool,router,token-ring}.json; do
    text=$(<"$net")
    machines=${text%%\"components\"*}
    number=20
    for ((place = 0; place < ${#machines}; place++)); do
        if [ $((place % 5)) -eq 1 ]; then
            printf '%s' "${text:0:place}@${text:place}" >"$file"
            count_fault "$net with an @ at $place" "$number"
        fi
        case $number${text:place:1} in
            20\") number=21 ;;
            21\" | 0\") number=20 ;;
            21\#) number=0 ;;
        esac
    done
    for ((place = 3; place < ${#text}; place += 7)); do
        printf '%s' "${text:0:place}${text:place+1}" >"$file"
        count_fault "$net without the byte at $place" ""
    done
done

printf '%s\n' "$(<tests/program/straggler-of-three/script.txt)" >"$whole"
number=0
place=0
while IFS= read -r line; do
    number=$((number + 1))
    for ((at = 0; at <= ${#line}; at++, place++)); do
        head -c "$place" "$whole" >"$script"
        case ${line:0:at} in '' | "$line" | show) fault=0 ;; *) fault=$number ;; esac
        count_script "a script cut at $place" "$fault"
        for byte in 000 377; do
            with_byte "$whole" "$place" "$byte" >"$script"
            count_script "a script with the byte $byte at $place" "$number"
        done
    done
done <"$whole"
