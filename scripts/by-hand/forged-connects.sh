#!/usr/bin/env bash
# Measures, by hand, how a server fares under CONNECTs that nobody stands behind (clients/forge.c), while clients of the reference library
# (clients/knock.c) try to get in: `forged-connects.sh [PROGRAM] [flood|far|full]`, PROGRAM as in check-clients.sh. Prints for each row the
# peers (`--peers`; of the reference library's relay the slots), the forged CONNECTs a second, from where they come, what the honest
# clients' line does, the server's options, how many of 40 honest tries got in, ten at a time for four seconds each, how many CONNECTs were
# forged and how many datagrams the system dropped at the server's socket, and the server's processor time, in seconds of 16. The last rows
# are the relay over the reference library (clients/server.c). It takes seven minutes.
#
# With `flood` the rows are those of 500 a second at 4,095 peers alone, twice by turns: three minutes. With `far` clients with round trips
# of 100 and 200 ms try beside 4,000 a second at 32 peers, so 1,056 slots, and beside 5,000 at 4,095: two minutes. With `full` all 32 places
# are taken, and 40 clients more come, ten at a time: on a line that loses nothing, and on three that lose 10 of 100 each way. These rows
# have how many were connected at the end, how many were told that the server is full, how many of these by the first datagram behind the
# answer, how long a client believed at most that it is connected, and how many believed it for more than 5 seconds: four minutes.
cd "$(dirname "$0")/../.." || exit 1
. scripts/lib/clients.sh
program=${1:-crates/enet_relay/out/enet_relay}

# The processor time of the server so far, in hundredths of a second.
used() {
    awk '{ print $14 + $15 }' "/proc/$relay/stat"
}

# Starts the server (`ours` or `reference`) with so many slots and these options, at `server`. Clients come to `port`: to the line before it
# that the words in `line` say (clients/proxy.c), where that has any, else to the server itself.
start() {
    free_port
    server=$port
    if [ "$1" = reference ]; then
        relay reference "$server" "$2" "$room" > /dev/null 2>&1 &
    else
        "$program" serve --port "$server" --peers "$2" --forever "${@:3}" < /dev/null > /dev/null 2>&1 &
    fi
    relay=$!
    if [ ${#line[@]} -gt 0 ]; then
        free_port
        "$room/proxy" "$port" "$server" "$RANDOM" "${line[@]}" > /dev/null &
        others+=($!)
    fi
}

# Ends all that a row has started.
stop() {
    kill "$relay" "${others[@]}" 2> /dev/null
    wait "$relay" "${others[@]}" 2> /dev/null
    relay=
    others=()
}

# How many datagrams the system dropped so far at the server's socket.
dropped() {
    awk -v at="$(printf ':%04X' "$server")" '$2 ~ at "$" { print $NF }' /proc/net/udp
}

# A row: the server (`ours` or `reference`), slots, forged CONNECTs a second, where they come from (an address, or `anywhere`), options.
row() {
    local from=$4 begun round client knocking in
    start "$1" "$2" "${@:5}"
    [ "$from" != anywhere ] || from=
    "$room/forge" "$server" "$3" 27 ${from:+"$from"} > "$room/forged" &
    forging=$!
    sleep 10
    begun=$(used)
    rm -f "$room"/in.*
    for round in 1 2 3 4; do
        knocking=()
        for client in 1 2 3 4 5; do
            "$room/knock" "$port" "127.0.2.$client" 2 4 > "$room/in.$round.$client" 2>&1 &
            knocking+=($!)
        done
        wait "${knocking[@]}"
    done
    in=$(awk '{ in_all += $1 } END { print in_all + 0 }' "$room"/in.*)
    begun=$(awk -v used=$(($(used) - begun)) 'BEGIN { print used / 100 }')
    wait "$forging"
    echo "$1, $2 peers, $3 a second from $4, ${line[*]:-no line}, ${*:5}: $in of 40; $(cat "$room/forged"), $(dropped) dropped; $begun s"
    stop
}

# Clients that are far away: what is on `line` takes half their round trip.
far() {
    for line in "trip 50" "trip 100"; do
        read -ra line <<< "$line"
        row ours 32 4000 anywhere
        row ours 4095 5000 anywhere
    done
    line=()
}

# A row: 32 clients have all places of the server, 40 more come over the line in `line`, ten at a time for so many seconds.
refused() {
    start ours 32
    "$room/knock" "$server" 127.0.3.1 32 $((4 * $1 + 8)) > "$room/players" &
    local players=$! round
    sleep 2
    for round in 1 2 3 4; do
        "$room/knock" "$port" 127.0.2.1 10 "$1" told > "$room/told.$round"
    done
    wait "$players"
    echo "ours, all of 32 places taken, ${line[*]}: $(awk '/connected/ { in_all += $1; ended += $3 }
        /told/ { told += $1; at_once += $4; longest = $8 > longest ? $8 : longest; long_ones += $11 }
        END {
            print in_all " in, " ended " ended, " told " of 40 told, " at_once " at once"
            print "    longest belief " longest " ms, " long_ones " for more than 5 s"
        }' "$room"/told.*)"
    echo "    the 32 at the end: $(cat "$room/players")"
    stop
}

full() {
    line=(trip 25)
    refused 6
    line=(trip 25 loss 10)
    refused 12
    refused 12
    line=(trip 100 loss 10)
    refused 12
    line=()
}

# 500 a second at 4,095 peers, without a limit and with one, and the reference library's relay.
flood() {
    row ours 4095 500 anywhere
    row reference 4095 500 anywhere
    row ours 4095 500 anywhere --connects-per-second 10
}

room=$(mktemp -d) || exit 1
relay=
line=()
others=()
trap 'kill $relay $(jobs -p) 2> /dev/null; wait; rm -rf "$room"' EXIT
build_clients "$room" || exit 1
case "${2:-}" in
    flood) flood; flood; exit ;;
    far | full) "$2"; exit ;;
esac
row ours 32 20 anywhere
row ours 32 2000 anywhere
row ours 32 10000 anywhere
row ours 32 8000 anywhere --ban 192.0.2.1
row ours 32 20 anywhere --connects-per-second 10
row ours 32 500 127.0.9.9
row ours 32 500 127.0.9.9 --per-address 4
row reference 32 20 anywhere
row reference 256 20 anywhere
flood
