# What bench/wrong-bodies and the gate share: which crates have wrong bodies here, and the sum of what they were tried on.

# The crates with wrong bodies that the gate leaves out.
crates_with_more() {
    for folder in tests/wrong-bodies/*/; do basename "$folder"; done
}

# The crates of crates.txt that one stands on, the lowest first.
crates_below() {
    awk -v "of=$1" '
        /^[a-z]/ {
            name = $1
            sub(/:$/, "", name)
            line[++n] = name
            uses[name] = " " $0 " "
        }
        END {
            is_below[of] = 1
            for (i = n; i > 0; i--)
                if (line[i] in is_below)
                    for (j = 1; j < i; j++)
                        if (index(uses[line[i]], " " line[j] " ")) is_below[line[j]] = 1
            for (i = 1; i <= n; i++)
                if (line[i] in is_below && line[i] != of) print line[i]
        }
    ' crates.txt
}

# What code says to the crates above it: all of it but comments and the bodies of functions behind their clauses.
contracts_in() {
    awk '
        in_body { if ($0 == end) in_body = 0; next }
        /^ *\/\// { next }
        /^ *([a-z()]+ )*fn / { is_fn = 1 }
        /^ *([a-z()]+ )*(impl|trait|struct|enum|mod)[ <]/ { is_fn = 0 }
        is_fn && /^ *\{$/ { in_body = 1; end = $0; sub(/\{/, "}", end); next }
        { print }
    ' "$@"
}

# The lines of the definitions and proofs in these folders, each with its file, but for comments.
definitions_in() {
    find "$@" -type f -print0 2>/dev/null | LC_ALL=C sort -z | xargs -0r grep -Hv '^ *--'
}

# The sum of the definitions of a crate and of what its code says to those above it, found once.
declare -A contract_sums=()
find_contracts() {
    [ -z "${contract_sums[$1]:-}" ] || return 0
    contract_sums[$1]=$(
        {
            (cd "crates/$1" && definitions_in specs)
            find "crates/$1/src" -type f -name '*.rt' -print0 | LC_ALL=C sort -z | xargs -0 cat | contracts_in | tr -s '[:space:]' ' '
        } | sha256sum
    )
}

# Sets `sum` to the sum of a crate's code, definitions and proofs but for comments, of its wrong bodies here, and of the contracts of all
# crates below it.
find_sum() {
    local below name
    below=$(crates_below "$1" | LC_ALL=C sort)
    for name in $below; do find_contracts "$name"; done
    sum=$(
        {
            (cd "crates/$1" && find src -type f -print0 | LC_ALL=C sort -z | xargs -0 grep -hv '^ *//' | tr -s '[:space:]' ' ')
            (cd "crates/$1" && definitions_in specs proofs)
            (cd "tests/wrong-bodies/$1" && find . -type f -print0 | LC_ALL=C sort -z | xargs -0 sha256sum)
            for name in $below; do echo "$name ${contract_sums[$name]}"; done
        } | sha256sum | cut -d' ' -f1
    )
}
