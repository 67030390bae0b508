# The recipe of docs/GUIDE.md for two questions of a day: how long a caller waits, with its interval, by three agents and by four. What is
# wanted was computed by tests/reference/simulate.py on files with these numbers.
for agents in 3 4; do
    for s in $(seq 20); do
        "$program" stats examples/call-desk.json --until 28800 --from 7200 --set "desk.agents=$agents" --seed-all "$s" --only desk --json
    done | sed 's/.*"observations":\[{[^]]*"mean":\([0-9.]*\),.*/\1/' |
        awk -v of=$agents '{ n++; a += $1; b += $1 * $1 } END { m = a / n; print of, m, "+-", 2.093 * sqrt((b - n * m * m) / (n - 1) / n) }'
done >"$out" 2>"$err"
printf '%s\n' "3 166.099 +- 32.7042" "4 27.3618 +- 7.09565" >"$room/wanted"
cmp --silent "$out" "$room/wanted" && [ ! -s "$err" ] && grep -qx "3 166.099 +- 32.7042" docs/GUIDE.md && grep -qx "4 27.3618 +- 7.09565" docs/GUIDE.md
count "the waits of callers by three agents and by four" 0 0 $?

# The model of docs/FROM-SIMPY.md: nothing is odd about it, and what `stats` writes of it is on the page.
sed -n '/^```json$/,/^```$/p' docs/FROM-SIMPY.md | sed '1d;$d' >"$room/shop.json"
"$program" check "$room/shop.json" --strict >"$out" 2>"$err" && "$program" stats "$room/shop.json" --until 1000000 --only desk >"$out" 2>>"$err"
ended=$?
[ ! -s "$err" ] && grep -qxF -e "$(tail -n 1 "$out")" docs/FROM-SIMPY.md
count "the model of docs/FROM-SIMPY.md" 0 "$ended" $?
