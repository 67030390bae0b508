# The wrong bodies that the gate leaves out: what each takes away stands once in its file, and each was refused on the crate as it is,
# over the contracts below it as they are.

for edit in tests/wrong-bodies/*/*.edit; do
    crate=${edit#tests/wrong-bodies/}
    awk -v "crate=crates/${crate%%/*}" '
        # The text of a file, and how often a part stands in it.
        function text_of(path,   text, line) {
            while ((getline line <path) > 0) text = text line "\n"
            close(path)
            return text
        }
        function times(text, part,   n, at) {
            while ((at = index(text, part)) > 0) {
                n++
                text = substr(text, at + length(part))
            }
            return n + 0
        }
        /^file: / { text = text_of(crate "/" substr($0, 7)) }
        /^old: / { old = substr($0, 6); if (times(text, old) != 1) odd = 1 }
        /^new:/ {
            at = index(text, old)
            text = substr(text, 1, at - 1) substr($0, 6) substr(text, at + length(old))
            pairs++
        }
        END { exit odd || !pairs }
    ' "$edit"
    count "$edit" 0 $? 0
done

. tests/wrong-bodies/sum.sh
for name in $(crates_with_more); do
    find_sum "$name"
    grep -qx "$name $sum" tests/wrong-bodies/tried.txt
    count "the wrong bodies of $name, tried on the crate and the contracts below it as they are: bench/wrong-bodies $name" 0 0 $?
done
