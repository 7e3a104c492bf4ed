#!/usr/bin/env bash
# Refuses growths inside drawn lists of `check_lists` (trials/src), at drawn places, and prints what came of it: `check-memory-lists.sh
# [CASES]`, 40 cases where none is given, five of each list. The program (trials/alone) becomes a crate in a copy of the repository and is
# built once, by `rt try`, in which the growth number LAST fails; a case is told on standard input which list happens, and to make so many
# growths before it that the refused one is a growth of that list. What is refused is passed over, and the rest of the list happens; the
# program ends with status 1 where the world then tells something else, or where the list breaks the headline. The last line is 'N growths
# refused: ..'; the status is 0 where no list broke.
cd "$(dirname "$0")/../.." || exit 1
cases=${1:-40}
last=4000
most=400
room=$(mktemp -d) || exit 1
trap 'rm -rf "$room"' EXIT
mkdir -p "$room/cases" "$room/crates/alone/src"
tar -cf - --exclude='crates/*/out' crates crates.txt HANDLES | tar -xf - -C "$room" || exit 1
cp -r trials/alone/main.rt.in trials/src/check_lists trials/src/check_lists.rt.in "$room/crates/alone/src" || exit 1
find "$room/crates/alone/src" -name '*.in' | while IFS= read -r file; do mv "$file" "${file%.in}"; done
cat trials/alone/line >> "$room/crates.txt"
cd "$room/crates/alone" || exit 1
place=1
for ((i = 0; i < cases; i++)); do
    place=$((place * 16807 % 2147483647))
    list=$((i / 5 + 1))
    k=$((place % most + 1))
    echo "$list $((last - k))" > "$room/cases/case-$(printf '%03d' "$i").list-$list.growth-$k"
done
rt try --steps 1 --fail-alloc "$last" --cases "$room/cases" > "$room/out" 2> "$room/lines"
grep -q '^case=' "$room/lines" || cat "$room/lines"

# What the runs printed comes case by case under '== NAME', each case's last line on standard error.
awk -v cases="$cases" '
    FNR == NR {
        if (match($0, /^case=[^ ]+/)) {
            name = substr($0, 6, RLENGTH - 5)
            ended[name] = match($0, /run=ended status=[0-9]+/) ? substr($0, RSTART + 17, RLENGTH - 17) : "none"
        }
        next
    }
    /^== / { name = $2; next }
    match($0, /^list [0-9]+: the headline holds; refused /) { refused[name] = $7; stopped[name] = $9; undrawn[name] = $11; next }
    END {
        for (name in ended) {
            if (ended[name] != 0 || !(name in refused)) { print name ": ended with " ended[name]; broken++ }
            else if (refused[name] > 0) answered++
            else if (stopped[name] > 0) stops++
            else if (undrawn[name] > 0) own++
            else silent++
            count++
        }
        if (count != cases) { print "of " cases " cases " count + 0 " were told of"; broken++ }
        printf "%d growths refused: %d answered by E1 and %d by S11, with nothing changed, %d of the draw itself, %d that no answer needs or behind the list, %d lists broken\n", count, answered, stops, own, silent, broken
        exit (broken > 0)
    }
' "$room/lines" "$room/out"
