# Network files: the tables of tests/files/, and files that are too long or too deep. `check` answers the number of the first fault,
# and a line of words.

file=$room/net.json

# Whether the file is taken, or refused with this number and one line of words, or just these.
checks() {
    "$program" check "$file" >"$out" 2>"$err"
    ended=$?
    if [ "$1" -eq 0 ]; then
        [[ $ended -eq 0 && ! -s $err && $(<"$out") == "ok: "* ]]
    else
        [[ $ended -eq 2 && $(<"$err") == "twarp: $1 "* && $(wc -l <"$out") -eq 1 && (-z ${2:-} || $(<"$out") == "$2") ]]
    fi
}

# Counts a file of a table: where it stands, its number, its text and its words.
check_file() {
    printf '%s' "$3" >"$file"
    checks "$2" "$4"
    count "$1" 0 0 $?
}

for table in tests/files/*.txt; do
    at=0
    begun=0
    while IFS= read -r line; do
        at=$((at + 1))
        case $line in
            '#'* | '') ;;
            '> '*) words=${line#> } ;;
            *)
                [ "$begun" -eq 0 ] || check_file "$table, line $begun" "$number" "$text" "$words"
                begun=$at
                number=${line%% *}
                text=${line#* }
                words=
                ;;
        esac
    done <"$table"
    check_file "$table, line $begun" "$number" "$text" "$words"
done

# A text, so many times.
times() {
    for ((turn = 0; turn < $2; turn++)); do printf '%s' "$1"; done
}

# Counts a file of format tw-1 or tw-2 with these components and inputs.
check_long() {
    printf '{"format":"%s","micro_limit":%s,"components":[%s],"couplings":[],"inputs":[%s]}' "$3" "$4" "$5" "$6" >"$file"
    checks "$2"
    count "$1" 0 0 $?
}

tally='{"name":"u","model":"tally"}'
relays=$(times '{"name":"a","model":"relay","delay":0},' 1024)
check_long "1,025 components" 9 tw-1 0 "$relays"'{"name":"a b","model":"tally"}' ""
check_long "1,025 components, one out of range" 10 tw-1 0 "$relays"'{"name":"a","model":"gen","period":0,"value":0}' ""
# The number of coupled models in each other, what is in the last of them, and the number that is wanted.
while read -r depth inside number; do
    [ "$inside" = tally ] && inside=$tally || inside=
    check_long "$depth models in each other" "$number" tw-2 1 \
        "$(times '{"name":"a","couplings":[],"components":[' "$depth")$inside$(times ']}' "$depth")" ""
done <<<"15 tally 0
16 none 0
16 tally 9
17 none 9
62 tally 9
63 none 20"
# A text for each number below another, with the number in the place of each @, and commas between.
each() {
    local all=
    for ((turn = 0; turn < $2; turn++)); do all+=,${1//@/$turn}; done
    printf '%s' "${all:1}"
}

# Counts a file of format tw-2 with these components and couplings.
check_tree() {
    printf '{"format":"tw-2","micro_limit":1,"components":[%s],"couplings":[%s],"inputs":[]}' "$3" "$4" >"$file"
    checks "$2"
    count "$1" 0 0 $?
}

relay='{"name":"r","model":"relay","delay":0}'
relays=$(each '{"name":"r@","model":"relay","delay":0}' 1024)
model='{"name":"m","components":[],"couplings":[]}'
models=$(each '{"name":"m@","components":[],"couplings":[]}' 1024)
check_tree "1,024 atoms and 1,024 models" 0 "$relays,$models" ""
check_tree "1,025 atoms" 9 "$relays,$relay" ""
check_tree "1,025 models" 9 "$models,$model" ""
# A model whose 512 relays are each at the end of 16 couplings, and one coupling more beside it.
links=
for port in {0..15}; do links+=,$(each '["",'"$port"',"r@",'"$port"']' 512); done
model='{"name":"m","components":['$(each '{"name":"r@","model":"relay","delay":0}' 512)'],"couplings":['${links:1}']}'
check_tree "8,192 couplings in a tree" 0 "$relay,$model" ""
check_tree "8,193 couplings in a tree" 9 "$relay,$model" '["r",0,"m",0]'
# Relays that are all coupled, port 0 to ports 0 and 1 of each of 64, by one coupling between the models around them.
to='{"name":"to","components":['$(each '{"name":"r@","model":"relay","delay":0}' 64)'],"couplings":['
to+=$(each '["",0,"r@",0],["",0,"r@",1]' 64)']}'
# A model of so many relays, each with port 0 to the model's.
senders() {
    printf '{"name":"from","components":[%s],"couplings":[%s]}' \
        "$(each '{"name":"r@","model":"relay","delay":0}' "$1")" "$(each '["r@",0,"",0]' "$1")"
}
check_tree "8,192 couplings between atoms" 0 "$(senders 64),$to" '["from",0,"to",0]'
[[ $(<"$out") == "ok: 128 components, 8192 couplings, 0 inputs" ]]
count "8,192 couplings between atoms, counted" 0 0 $?
check_tree "8,320 couplings between atoms" 9 "$(senders 65),$to" '["from",0,"to",0]'
# Far too many parts with a long name take no more memory than the text.
printf '{"format":"tw-2","micro_limit":1,"components":[{"name":"%s","couplings":[],"components":[%s]}],"couplings":[],"inputs":[]}' \
    "$(times long 20000)" "$(times "$tally," 20000)$tally" >"$file"
"$program" seq "$file" --until 1 >"$out" 2>"$err"
ended=$?
[[ ! -s $out && $(<"$err") == "twarp: 9 TooMany" ]]
count "20,001 parts and a name of 80,000 bytes" 2 "$ended" $?
# Counts a file of format tw-3 with one machine of these members, and a component of it that gives a list of two.
check_machine() {
    printf '{"format":"tw-3","micro_limit":1,"models":[{"name":"m","parameters":["list"],%s}],' "$3" >"$file"
    printf '"components":[{"name":"x","model":"m","list":[4,5]}],"couplings":[],"inputs":[]}' >>"$file"
    checks "$2" "${4:-}"
    count "$1" 0 0 $?
}

# The numbers of a table, one more than said.
numbers() {
    printf '%s0' "$(times '0,' "$1")"
}

shown='"words":["t[0]"]'
check_machine "65,534 numbers of a table and 2 of a list" 0 '"tables":{"t":['"$(numbers 65533)"'],"u":"list"},'"$shown"
check_machine "65,535 numbers of a table and 2 of a list" 21 '"tables":{"t":['"$(numbers 65534)"'],"u":"list"},'"$shown"
check_machine "65,534 numbers of a table and 2 of a list of three tables" 0 \
    '"tables":{"t":['"$(numbers 65533)"'],"u":"list","v":"list","w":"list"},'"$shown"
check_machine "65,535 numbers of a table and 2 of a list of two tables" 21 \
    '"tables":{"t":['"$(numbers 65534)"'],"u":"list","v":"list"},'"$shown" \
    'components[0] "x": tables have 65537 numbers together, at most 65536'
check_machine "65,536 numbers of a table" 21 '"tables":{"t":['"$(numbers 65535)"'],"u":"list"},'"$shown"
check_machine "65,537 numbers of a table" 21 '"tables":{"t":['"$(numbers 65536)"'],"u":"list"},'"$shown"
tables='"tables":{"t":[1],"u":"list"}'
check_machine "4,096 nodes" 0 "$tables"',"internal":"'"$(times 'draw ' 4094)"'",'"$shown"
check_machine "4,097 nodes" 21 "$tables"',"internal":"'"$(times 'draw ' 4095)"'",'"$shown"
check_machine "4,097 nodes of a text" 21 "$tables"',"internal":"'"$(times 'draw ' 4097)"'",'"$shown" \
    'models[0] "m": internal, line 1, column 20485: more than 4096 nodes'
check_machine "4,097 nodes of an expression" 21 "$tables"',"words":["1'"$(times ' + 1' 2048)"'"]' \
    'models[0] "m": words[0], line 1, column 8194: more than 4096 nodes'
# Counts a file of format tw-3 with these machines and components.
check_tables() {
    printf '{"format":"tw-3","micro_limit":1,"models":[%s],"components":[%s],"couplings":[],"inputs":[]}' "$3" "$4" >"$file"
    checks "$2" "${5:-}"
    count "$1" 0 0 $?
}

# A machine of this name with so many numbers of its own, and one with ten numbers and a list.
zeros=$(numbers 65535)
owner() {
    printf '{"name":"%s","tables":{"t":[%s]},"words":["t[0]"]}' "$1" "$zeros"
}
owners=$(for ((turn = 0; turn < 15; turn++)); do printf '%s,' "$(owner "o$turn")"; done)
lister='{"name":"m","parameters":["list"],"tables":{"t":['"$(numbers 9)"'],"u":"list","v":"list"},"words":["u[0]"]}'
given='{"name":"x","model":"m","list":['"$(numbers 32762)"']}'
second='{"name":"c","components":[{"name":"y","model":"m","list":['"$(numbers 32762)"']}],"couplings":[]}'
few="$owners$lister"
check_tables "1,048,576 numbers of a file" 0 "$few" "$given,$second"
check_tables "1,048,577 numbers of a file" 21 "$few" "$given,$second"',{"name":"z","model":"m","list":[1]}' \
    "the file: 1048577 numbers in tables and lists, at most 1048576"
check_tables "17 machines of 65,536 numbers" 21 "$owners$(owner p),$(owner q)" "" \
    "the file: 1114112 numbers in tables and lists, at most 1048576"
check_tables "a machine of 65,536 numbers, 17 times" 0 "$(owner p)" "$(each '{"name":"x@","model":"p"}' 17)"
# Too many components of a large machine are refused before the program of each is kept.
printf '{"format":"tw-3","micro_limit":1,"models":[{"name":"m","internal":"%s","words":["0"]}],"components":[%s],"couplings":[],"inputs":[]}' \
    "$(times 'draw ' 4094)" "$(each '{"name":"x@","model":"m"}' 1100)" >"$file"
(ulimit -v 400000 && exec "$program" seq "$file" --until 1) >"$out" 2>"$err"
ended=$?
[[ ! -s $out && $(<"$err") == "twarp: 9 TooMany" ]]
count "1,100 components of a machine of 4,095 nodes" 2 "$ended" $?
inputs=$(times '{"tick":1,"to":"u","port":0,"value":0},' 65535)
unknown='{"tick":1,"to":"no","port":0,"value":0}'
check_long "65,536 inputs" 5 tw-2 1 "$tally" "$inputs$unknown"
check_long "65,537 inputs" 9 tw-2 1 "$tally" '{"tick":1,"to":"u","port":0,"value":0},'"$inputs$unknown"
printf '%s%s' "$(times '[' 127)" "$(times ']' 127)" >"$file"
checks 21
count "127 lists in each other" 0 0 $?
printf '%s%s' "$(times '[' 128)" "$(times ']' 128)" >"$file"
checks 20
count "128 lists in each other" 0 0 $?
