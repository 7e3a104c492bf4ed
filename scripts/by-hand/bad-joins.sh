#!/usr/bin/env bash
# Tells who gets in over a bad line, on which a datagram takes 300 ms and 30 of 100 are lost, each way: `bad-joins.sh [PROGRAM] [OPTION..]`, run
# by hand. 200 clients of the reference library (clients/join.c) ask a server for a connection, by way of four lines (clients/proxy.c). PROGRAM
# is as in check-clients.sh, and the OPTIONs are those of its `serve`. Prints how many were connected within 5 seconds by the server's log, how
# many later, and how many clients took themselves for connected and weren't. The status is 1 where fewer than 178 were connected in time or
# more than 7 were mistaken. What is lost is drawn anew each time: where 95.1 and 0.45 of 100 are expected, one run in 7,000 ends so. It takes
# forty seconds. The same in memory, with 40,000 clients that do what those of the reference library do, is in check-strangers.sh.
cd "$(dirname "$0")/../.." || exit 1
. scripts/lib/clients.sh
program=${1:-crates/enet_relay/out/enet_relay}
[ $# -eq 0 ] || shift
room=$(mktemp -d) || exit 1
trap 'kill $(jobs -p) 2> /dev/null; wait; rm -rf "$room"' EXIT
build_clients "$room" && mkfifo "$room/log" || exit 1
free_port
server=$port
"$program" serve --port "$server" --peers 255 --forever --log "$@" < /dev/null > /dev/null 2> "$room/log" &
lines=()
for line in 1 2 3 4; do
    free_port
    lines+=("$port")
    "$room/proxy" "$port" "$server" "$((RANDOM + line))" trip 300 loss 30 &
done
"$room/join" 200 30 "${lines[@]}" < "$room/log" | tee "$room/said"
read -r _ _ soon _ _ _ _ _ _ mistaken _ < <(tr -d , < "$room/said")
[ -n "$mistaken" ] && [ "$soon" -ge 178 ] && [ "$mistaken" -le 7 ]
