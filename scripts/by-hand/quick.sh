#!/usr/bin/env bash
# Before a push, in at most five minutes on four processors at rest: `quick.sh [PROGRAM]`. It proves nothing. Side by side run the
# documents' checks and whether edits fit the text, the trials except the states after losses (check_calm, two minutes more), and the rows
# over the built `enet_relay`, or PROGRAM, with out/probe, which is built anew. Without a built program the rows are passed over. Prints
# what each says; the last line names the tests that failed, and the status is 1 where one did.
cd "$(dirname "$0")/../.." || exit 1
begun=$SECONDS
program=${1:-crates/enet_relay/out/enet_relay}
room=$(mktemp -d) || exit 1
trap 'kill $(jobs -p) 2> /dev/null; wait; rm -rf "$room"' EXIT

# Runs a command under the name $1, and notes it if it fails.
part() {
    echo "== ${*:2}"
    "${@:2}" || echo "$1" >> "$room/failed"
    echo "   after $((SECONDS - begun)) seconds"
}

texts() {
    part documents python3 scripts/check/check-documents.py
    part quotes python3 scripts/check/quotes.py
    part edits bash scripts/check/check-edits.sh --read
}
trials() {
    local modules
    mapfile -t modules < <(sed -n 's/^mod \(check_[a-z]*\);$/\1/p' trials/src/lib.rt.in | grep -v '^check_calm$')
    part trials bash scripts/check/check-trials.sh "${modules[@]}"
}
rows() {
    if [ -x "$program" ]; then
        part probe bash scripts/lib/build-probe.sh
        part rows bash scripts/check/check-rows.sh "$program"
    else
        echo "SKIPPED rows: there is no $program (\`rt run\` or \`rt ci\` leaves it)"
    fi
}

for name in texts trials rows; do
    "$name" > "$room/$name" 2>&1 < /dev/null &
done
wait
cat "$room/texts" "$room/trials" "$room/rows"
if [ -s "$room/failed" ]; then
    echo "failed after $((SECONDS - begun)) seconds: $(paste -sd ' ' "$room/failed")"
    exit 1
fi
echo "passed after $((SECONDS - begun)) seconds"
