#!/usr/bin/env bash
# Runs the trials of the crates, which are in trials/: worked values, trials of a peer, captured datagrams of the reference library byte for
# byte, scripts over hosts, states of two hosts after losses, queues, wires and a service with a real host, from several threads and through
# sockets: `check-trials.sh [NAME..]`, where a NAME is a module (check_peer) or a trial (trials_of_a_peer); without one, all run. Their
# files end in .in, which no check reads: here they become a crate in a copy of the repository, and `rt try` builds the tests at once, with
# all that they stand on. That build isn't proved; it stops at each overflow and each index or access out of range. If all run, the files
# must be as `rt fmt` lays them out. All take three minutes of a processor, and two more for those states. Prints a compiler's first error,
# or each trial that failed; the last line is 'N passed, M failed', and the status 1 where one failed.
cd "$(dirname "$0")/../.." || exit 1
. scripts/lib/tally.sh
room=$(mktemp -d) || exit 1
trap 'rm -rf "$room"' EXIT
there=$room/crates/trials

# Makes the crate.
copy() {
    tar -cf - --exclude='crates/*/out' crates crates.txt HANDLES | tar -xf - -C "$room" && cp -r trials "$there" || return 1
    find "$there/src" -name '*.in' -print0 | while IFS= read -r -d '' file; do mv "$file" "${file%.in}" || return 1; done
    cat "$there/line" >> "$room/crates.txt"
}

if ! copy; then
    echo 'FAILED copy: no copy of the repository could be made'
    echo '0 passed, 1 failed'
    exit 1
fi
[ $# = 0 ] || python3 scripts/by-hand/keep-trials.py "$there/src" "$@" || { echo '0 passed, 1 failed'; exit 1; }
cd "$there" || exit 1
rt fmt > "$room/laid" 2>&1
if [ $# = 0 ]; then
    failed=$(grep -c '^rt: formatted ' "$room/laid")
    sed -n 's/^rt: formatted \(.*\)/FAILED trials\/\1.in: not as rt fmt lays it out/p' "$room/laid"
fi
data=(--data peer.txt=peer.txt --data lists.txt=lists.txt --data fleets.txt=fleets.txt --data hosts.txt=hosts.txt)
for file in captured/*.txt hosts/*.hosts; do
    data+=(--data "${file#*/}=$file")
done
rt try --test --seconds 1800 "${data[@]}" > "$room/said" 2>&1
result=$(sed -nE 's/^test result: [A-Za-z]+\. ([0-9]+) passed; ([0-9]+) failed.*/\1 \2/p' "$room/said")
if [ -n "$result" ]; then
    grep -vE '^(test .* \.\.\. ok|tests: [0-9]+|test result: .*|races: .*|run=ended status=0 .*)$' "$room/said"
    passed=${result% *}
    failed=$((failed + ${result#* }))
else
    first_error "$room/said"
fi
[ "$passed" -gt 0 ] || failed=$((failed + 1))
echo "$passed passed, $failed failed"
[ "$failed" -eq 0 ]
