#!/usr/bin/env bash
# A hostile peer floods a relay (clients/flood.c) while eight clients of the reference library talk through it (clients/steady.c):
# `check-flood.sh [--bound BYTES] [PROGRAM] [KIND] [SECONDS] [KILOBYTES]`, run by hand. PROGRAM is as in check-clients.sh, or `layer`, the relay of
# clients/server.c over our layer (crates/enet_c/out/libenet_c.a); KIND is one of those of flood.c (waiting), for so many seconds (10), so
# many kilobytes a second (3,600). Prints the relay's resident memory, in KiB, each second until ten seconds after the flood. The status is 1
# where one of the eight lost its connection or a reliable packet, where the relay ended, or where its memory has grown by more than BYTES,
# where a bound is given.
cd "$(dirname "$0")/../.." || exit 1
. scripts/lib/clients.sh
bound=
[ "${1:-}" != --bound ] || { bound=$2; shift 2; }
program=${1:-crates/enet_relay/out/enet_relay}
kind=${2:-waiting}
seconds=${3:-10}
room=$(mktemp -d) || exit 1
relay=
trap 'kill $relay $(jobs -p) 2> /dev/null; wait; rm -rf "$room"' EXIT
build_clients "$room" || exit 1
if [ "$program" = layer ]; then
    bash scripts/by-hand/build-c.sh "$room/made" crates/enet_c/out/libenet_c.a > "$room/build" 2>&1 &&
        cc -std=gnu11 -O2 -Ic -o "$room/our-server" clients/server.c "$room/made/lib/libgofnjerta_enet.a" || { cat "$room/build" >&2; exit 1; }
fi

# The relay's resident memory, in KiB.
resident() {
    awk '/^VmRSS:/ { print $2 }' "/proc/$relay/status"
}

free_port
relay "$program" "$port" 16 "$room" > /dev/null 2> "$room/relay" &
relay=$!
"$room/steady" "$port" 8 $((seconds + 8)) 100 0 3 > "$room/good" 2>&1 &
good=$!
sleep 3
before=$(resident)
highest=$before
echo "before: $before KiB"
"$room/flood" "$port" "$seconds" "${4:-3600}" "$kind" > "$room/bad" 2>&1 &
for ((second = 1; second <= seconds + 10; second++)); do
    sleep 1
    now=$(resident)
    [ -n "$now" ] || break
    [ "$now" -le "$highest" ] || highest=$now
    echo "second $second: $now KiB"
done
wait "$good"
status=$?
grew=$(((highest - before) * 1024))
echo "the hostile peer: $(<"$room/bad"); the relay grew by $grew bytes; the good clients: $(<"$room/good")"
read -r _ lost _ idle _ came _ whole _ < <(tr -d , < "$room/good")
[ "$status" -eq 0 ] && [ "$lost $idle" = '0 0' ] && [ "$came" = "$whole" ] || { echo 'the good clients were disturbed'; status=1; }
kill -0 "$relay" 2> /dev/null || { echo "the relay ended: $(<"$room/relay")"; status=1; }
[ -z "$bound" ] || [ "$grew" -le "$bound" ] || { echo "that is above $bound"; status=1; }
[ "$status" -eq 0 ]
