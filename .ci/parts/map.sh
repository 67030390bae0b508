# What the pages say of the tree: names, paths, the modules of each crate, and the storeys in one order. bench/map says of each fault where.
# Left out where no Python is.

if command -v python3 >/dev/null; then
    bench/map >"$out"
    ended=$?
    [ "$ended" -eq 0 ] || cat "$out"
    count "bench/map" 0 "$ended" 0
fi
