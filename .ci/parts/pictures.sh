# Pictures: of each case of `seq` and of `play` in tests/program/ and of the networks of examples/. What they show is looked at by
# people; here they are well formed, the same for the same call, end as they should, and have a mark for each record.

# Whether a file is a picture: well-formed XML where something is there to tell, and whole.
picture() {
    [[ $(head -c 4 "$1") == "<svg" && $(tail -c 7 "$1") == "</svg>" ]] || return 1
    ! command -v xmllint >/dev/null || xmllint --noout "$1" 2>/dev/null
}

# Whether a file of Graphviz has a picture.
picture_in() {
    [[ $(tail -n 1 "$1") == "</svg>" ]]
}

# Draws a network, twice, and compares the ends, and with a number of marks where one is given.
drawn() {
    "$program" draw "$network" --until "$until" "${@:2}" >"$out" 2>"$err"
    ended=$?
    "$program" draw "$network" --until "$until" "${@:2}" 2>/dev/null | cmp --silent - "$out" && picture "$out" && same "$err" "$room/fault" &&
        { [ -z "$1" ] || [ "$(grep -oE '<title>[0-9]+\.[0-9]+ [^ ]+ (out|int|ext|con)' "$out" | wc -l)" -eq "$1" ]; }
    count "twarp draw $network --until $until ${*:2}" "$status" "$ended" $?
}

for case in tests/program/*/; do
    mapfile -t words <"$case/args"
    network=$case${words[1]:-}
    [ -e "$network" ] && [ ! -e "$case/stderr" ] || continue
    until=${words[3]:-}
    : >"$room/fault"
    status=0
    case ${words[0]} in
        seq)
            [ ! -e "$case/stdout" ] || grep '^fault: ' "$case/stdout" >"$room/fault"
            [ ! -s "$room/fault" ] || status=3
            records=0
            [ ! -e "$case/stdout" ] || records=$(grep -vc '^fault: ' "$case/stdout")
            drawn "$records"
            ;;
        play)
            mapfile -t more < <(printf '%s\n' "${words[@]:4}" | sed "s#^\(.*\.txt\)\$#$case\1#")
            drawn "" "${more[@]}"
            ;;
    esac
done

# Graphs: the same for the same file, and drawn by Graphviz where it is there, without a word.
for network in examples/*.json tests/program/*/network.json; do
    "$program" check "$network" >"$out" 2>"$err" || continue
    "$program" dot "$network" >"$out" 2>"$err"
    ended=$?
    "$program" dot "$network" 2>/dev/null | cmp --silent - "$out" && [ ! -s "$err" ] &&
        { ! command -v dot >/dev/null || { dot -Tsvg "$out" >"$room/graph" 2>"$room/words" && [ ! -s "$room/words" ] && picture_in "$room/graph"; }; }
    count "twarp dot $network" 0 "$ended" $?
done
for network in nowhere.json examples/straggler.txt; do
    "$program" dot "$network" >"$out" 2>"$err"
    ended=$?
    [[ ! -s $out && $(head -n 1 "$err") =~ ^"twarp: "(19 Unreadable|20 NotJson)$ ]]
    count "twarp dot $network" 2 "$ended" $?
done

# A part of a run, and names that are none.
network=examples/ring-of-queues.json
until=16
status=0
: >"$room/fault"
first=$("$program" stats "$network" --until 1 --json | sed 's/.*"components":\[{"name":"\([^"]*\)".*/\1/')
drawn "" --only "$first,$first" --figure jobs --from 5
drawn "" --from 16
for words in "--only nobody" "--only $first,nobody" "--figure nothing"; do
    # shellcheck disable=SC2086 # a line is words
    "$program" draw "$network" --until 16 $words >"$out" 2>"$err"
    ended=$?
    [[ ! -s $out && $(head -n 1 "$err") == "twarp: 15 NoSuch" ]]
    count "twarp draw $words" 2 "$ended" $?
done

drawn "" --figure "$first=dropped" --figure jobs --width 600
drawn "" --courses --width 4000
[[ $(grep -c 'class="span"' "$out") -gt 1 && $(grep -c 'class="o"' "$out") -eq 0 ]]
count "twarp draw --courses has bands and no marks" 0 0 $?

# The lanes stand in the order in which they are asked for.
"$program" draw examples/a-row.json --until 5 --only t,g >"$out" 2>"$err"
ended=$?
[[ $(grep -oE '>(t|g)</text>|<title>(t|g)</title>' "$out" | head -n 1) == *t* ]]
count "twarp draw --only t,g" 0 "$ended" $?

# More records than a picture of marks takes: it has courses alone, or where marks are asked for it ends before them, and says so.
network=examples/sixty-four-hops.json
until=40000
drawn ""
! grep -q 'class="o"' "$out"
count "twarp draw of a long run has no marks" 0 0 $?
drawn "" --marks
grep -q 'The picture ends after' "$out"
count "twarp draw --marks ends before what has no room" 0 0 $?


# The pictures of the pages are those that the calls beside them draw.
while read -r name words; do
    # shellcheck disable=SC2086 # a line is words
    "$program" draw $words >"$out" 2>"$err"
    ended=$?
    cmp --silent "$out" "docs/pictures/$name.svg"
    count "docs/pictures/$name.svg" 0 "$ended" $?
done <<'END'
ring examples/ring-of-queues.json --until 16
pool examples/pool.json --until 40
day examples/call-desk.json --until 28800 --courses --only desk --figure length(line)
seeds examples/a-row.json --until 40 --seed 12 --steps 90
END
