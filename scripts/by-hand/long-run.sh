#!/usr/bin/env bash
# Measures, by hand, a long run of `enet_relay serve` with many clients of the reference library beside the same over the reference library
# (clients/server.c): `long-run.sh [PROGRAM] [SECONDS] [CLIENTS]`, 300 seconds with 300 clients where they aren't given. In the first half of the
# seconds one client talks 200 times a second to all others, in the second eight say as much as goes through, 32 bytes each, reliably
# (clients/load.c). Each second the relay's processor time and memory are noted. Prints a table with a line for each relay: packets delivered a
# second in the second half, and in a second of processor time; of the first half the processor time of each second in percent, and the trip's
# median and 99th percentile; and the resident memory, in MB, once all clients are there, at the end of the first half, at the end, and the most.
# PROGRAM as in check-clients.sh; THREADS and PROCESSOR as in bench.sh. With these numbers it takes eleven minutes.
cd "$(dirname "$0")/../.." || exit 1
. scripts/lib/clients.sh
program=${1:-crates/enet_relay/out/enet_relay}
seconds=${2:-300}
clients=${3:-300}
room=$(mktemp -d) || exit 1
trap 'kill $relay $watching 2> /dev/null; rm -rf "$room"' EXIT
relay=
watching=
build_clients "$room" || exit 1

# Each second a line: hundredths of a second of processor time so far, and kilobytes.
watch() {
    while kill -0 "$1" 2> /dev/null; do
        awk -v page="$(getconf PAGESIZE)" '{ print $14 + $15, $24 * page / 1024 }' "/proc/$1/stat" 2> /dev/null
        sleep 1
    done
}

row() {
    free_port
    relay "$1" "$port" $((clients + 10)) "$room" > "$room/out" 2> "$room/err" &
    relay=$!
    watch "$relay" > "$room/watched" &
    watching=$!
    timeout $((seconds + 120)) "$room/load" "$port" "$relay" "$clients" 32 0 $((seconds / 2)) 8 > "$room/load.out" 2> "$room/load.err" ||
        { cat "$room/load.err" >&2; echo '0 0 0 0' > "$room/load.out"; }
    kill "$relay" "$watching"
    wait "$relay" "$watching" 2> /dev/null
    relay=
    watching=
    awk -v name="$1" -v half=$((seconds / 2)) -v load="$(<"$room/load.out")" '
        { used[NR] = $1; kept[NR] = $2; if ($2 > most) most = $2 }
        END {
            split(load, told)
            # The second half ends with the last line, the first before it; the clients have joined by then.
            middle = NR - half > 1 ? NR - half : 1
            begins = middle - half + 2 > 1 ? middle - half + 2 : 1
            light = middle > begins ? (used[middle] - used[begins]) / (middle - begins) : 0
            printf "| %s | %d, %d | %.1f | %d, %d | %.1f, %.1f, %.1f, %.1f |\n", name, told[1], told[2], light, told[3], told[4],
                kept[begins] / 1024, kept[middle] / 1024, kept[NR] / 1024, most / 1024
        }' "$room/watched"
}

printf '| relay | packets delivered a second, and in a second of processor time | processor time at light load (%%) | trip: median, 99th percentile (µs) | memory: joined, after half, at the end, most (MB) |\n|---|---|---|---|---|\n'
row "$program"
row reference
