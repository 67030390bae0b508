# The random numbers of machines: the numbers themselves and their independence, by tests/reference/random.py. Each of its checks counts.

python3 tests/reference/random.py "$program" >"$out" 2>"$err"
ended=$?
read -r good bad < <(sed -n '$s/^\([0-9]*\) passed, \([0-9]*\) failed$/\1 \2/p' "$out") || { good=0 && bad=1; }
sed '$d' "$out"
passed=$((passed + good))
failed=$((failed + bad))
count "tests/reference/random.py" 0 "$ended" 0
