#!/usr/bin/env bash
# Strangers send a relay drawn and mutated datagrams as fast as they can, while two clients of the reference library talk through it
# (clients/hostile.c): `check-hostile.sh [PROGRAM] [DATAGRAMS] [SEED]`, 1,000,000 of seed 1 where they aren't given. PROGRAM is as in
# check-clients.sh. Then, for each kind of list that a peer can fill, a peer sends a fresh relay what fills it, for ten seconds, 1,000
# datagrams a second (clients/swarm.c), while eight clients talk through it (clients/steady.c). Prints how it went; the status is 0 where the
# clients lost nothing, the relay's memory stayed where it was under the first, and grew by no more under each of the others than its limit
# allows (docs/MEMORY.md).
cd "$(dirname "$0")/../.." || exit 1
. scripts/lib/clients.sh
program=${1:-crates/enet_relay/out/enet_relay}
unset THREADS
room=$(mktemp -d) || exit 1
trap 'rm -rf "$room"; kill $relay 2> /dev/null' EXIT
relay=
build_clients "$room" || exit 1
free_port
relay "$program" "$port" 32 "$room" > /dev/null 2> "$room/relay" &
relay=$!
timeout 300 "$room/hostile" "$port" "$relay" "${2:-1000000}" "${3:-1}"
status=$?
kill -0 "$relay" 2> /dev/null || { echo "the relay ended: $(<"$room/relay")"; status=1; }
kill "$relay" 2> /dev/null
wait "$relay" 2> /dev/null

# A peer fills lists of the kind $1, while eight clients talk; the relay may grow by $2 MiB.
swarm() {
    local talk said grown
    free_port
    relay "$program" "$port" 32 "$room" > /dev/null 2> "$room/relay" &
    relay=$!
    sleep 1
    "$room/steady" "$port" 8 14 100 > "$room/talk" 2>&1 &
    talk=$!
    sleep 2
    timeout 60 "$room/swarm" "$port" "$relay" 3 "$1" 1000 10 > "$room/swarmed" 2>&1
    said=$(<"$room/swarmed")
    wait "$talk"
    echo "$said; clients: $(<"$room/talk")"
    grown=$(sed -nE 's/.* grew by ([0-9-]+) bytes at most.*/\1/p' <<< "$said")
    [[ $(<"$room/talk") == 'lost 0, came '* ]] && [ -n "$grown" ] && [ "$grown" -lt $(($2 << 20)) ] && kill -0 "$relay" 2> /dev/null || status=1
    kill "$relay" 2> /dev/null
    wait "$relay" 2> /dev/null
}

swarm empty 128
swarm lines 128
swarm held 128
swarm pieces 128
swarm both 128
swarm groups 16
swarm pings 16
[ "$status" -eq 0 ]
