#!/usr/bin/env bash
# Measures, by hand, what a stop of the server's process costs: `after-stop.sh [PROGRAM] [SECONDS] [CLIENTS]`. CLIENTS of the reference library
# (32) each send 200 bytes ten times a second, reliably and unreliably (clients/steady.c), through `enet_relay serve`. After ten seconds
# SIGSTOP holds the server for SECONDS (10); then all go on for 30 seconds. Prints the greatest resident memory before the stop and after it,
# in MB, and what `steady` says, which begins with how many connections were lost. PROGRAM as in check-clients.sh. Takes a minute.
cd "$(dirname "$0")/../.." || exit 1
. scripts/lib/clients.sh
program=${1:-crates/enet_relay/out/enet_relay}
seconds=${2:-10}
clients=${3:-32}
room=$(mktemp -d) || exit 1
server=
trap 'kill -KILL $server 2> /dev/null; rm -rf "$room"' EXIT
build_clients "$room" || exit 1

# The greatest resident memory of the server within $1 seconds, in MB.
most_within() {
    local until=$((SECONDS + $1)) most=0 now
    while [ "$SECONDS" -lt "$until" ]; do
        now=$(awk '/^VmRSS:/ { print $2 }' "/proc/$server/status")
        [ "${now:-0}" -le "$most" ] || most=$now
        sleep 0.2
    done
    awk -v most="$most" 'BEGIN { printf "%.1f", most / 1024 }'
}

free_port
relay "$program" "$port" $((2 * clients)) "$room" > "$room/out" 2> "$room/err" &
server=$!
timeout 120 "$room/steady" "$port" "$clients" $((seconds + 40)) 200 > "$room/steady.out" 2>&1 &
talk=$!
before=$(most_within 10)
kill -STOP "$server"
sleep "$seconds"
kill -CONT "$server"
after=$(most_within 30)
wait "$talk"
{ kill -KILL "$server"; wait "$server"; } 2> /dev/null
server=
echo "resident memory before a stop of $seconds seconds: at most $before MB, within 30 seconds after it: $after MB"
cat "$room/steady.out"
