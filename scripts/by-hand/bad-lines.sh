#!/usr/bin/env bash
# Tells what becomes of connections on bad lines: `bad-lines.sh [SERVER..]`. Each SERVER is a relay: a built `enet_relay`, `layer`, that of
# clients/server.c over our layer for C, or `reference`, the same over the reference library. Where none is named, these are this
# repository's two. Each is tried with clients (clients/soak.c) on the reference library and on our layer, and beside them the reference's
# relay with its own clients. Our layer is linked with crates/enet_c/out/libenet_c.a, or, of a SERVER=ARCHIVE, with that archive, so that
# two commits run side by side. Each try has a line of its own (clients/proxy.c), and what a client says goes to all others.
#
# Prints a row for each try: the line; the relay, the clients; how many connections of talking and of idle clients were lost, and how often
# one that asked anew was told that the relay is full; how many reliable packets came, of how many that would have come where none was lost;
# how many unreliable ones; the median, the 99th percentile and the longest of the trips of reliable ones, in milliseconds; how many seconds
# after the senders stopped the last of them came; which share of the relay's sends of reliable commands with data were not the first; how
# many datagrams found the line's queue full; how many packets came out of order, before a connection was lost; how many KB the first client
# got, and those that got least and most; and the relay's resident memory at its end, in MB.
#
# It tests nothing: what is lost is drawn, and the times are the machine's. Where other things run, put `chrt -r 20` in front. RUNS (1) is
# how often each line is tried, all relays at once; ONLY, where it is set, is a regular expression that the names of the lines to be tried
# match; WITH, where it is set, is `libenet` or `ours`, the clients to be tried; THREADS as in bench.sh. All takes half an hour.
cd "$(dirname "$0")/../.." || exit 1
. scripts/lib/clients.sh
[ $# -gt 0 ] || set -- layer crates/enet_relay/out/enet_relay

# Tries the relay $1 with the clients $2, $3 of them for $4 seconds, with the words $5 of clients/soak.c; the proxy's words follow.
try() {
    trap 'kill $relay $proxy 2> /dev/null' EXIT
    local program=$1 clients=$2 count=$3 seconds=$4 words=$5 server way said
    shift 5
    free_port
    server=$port
    free_port
    way=$port
    read -ra words <<< "${words//SERVER/$server}"
    relay "$program" "$server" "$count" "$own" 2> /dev/null &
    relay=$!
    "$room/proxy" "$way" "$server" "$RANDOM" tell 1 "$@" > "$own/line" &
    proxy=$!
    said=$("$clients" "$way" "$count" "$seconds" "${words[@]}") || said=failed
    said="$said memory $(awk '/^VmRSS/ { print $2 }' "/proc/$relay/status")"
    kill "$proxy"
    wait "$proxy"
    echo "$said $(<"$own/line")"
}

# The row of a try.
row() {
    awk -v head="$1" '{
        for (i = 1; i <= NF; i++) at[$i] = i
        if ($1 == "failed") { print "| " head " | failed |"; exit }
        l = at["lost"]; c = at["came"]; t = at["trips"]; b = at["bytes"]
        sent = $(at["sent"] + 1)
        printf "| %s | %d, %d, %d | %d of %d | %d | %d, %d, %d | %.1f | %.0f %% | %d | %d | %d, %d, %d | %.1f |\n", head, $(l + 1), $(l + 2),
            $(at["refused"] + 1), $(c + 1), $(c + 2), $(c + 3), $(t + 1), $(t + 2), $(t + 3), $(at["drained"] + 1), sent ? 100 * $(at["again"] + 1) / sent : 0,
            $(at["overfull"] + 1), $(at["unordered"] + 1), $(b + 1) / 1000, $(b + 2) / 1000, $(b + 3) / 1000, $(at["memory"] + 1) / 1024
    }'
}

# Tries all relays and clients at once on the line $1: $2 clients that talk for $3 seconds, with the words $4; the proxy's words follow.
line() {
    local name=$1 place run tries
    shift
    [[ $name =~ ${ONLY:-} ]] || return
    for ((run = 0; run < ${RUNS:-1}; run++)); do
        tries=()
        for place in "${!programs[@]}"; do
            port=$((20000 + (RANDOM % 100 * 16 + place) * 4))
            own=$room/$place
            (try "${programs[place]}" "${talkers[place]}" "$@" | row "$name | ${names[place]}" > "$own/row") &
            tries+=($!)
        done
        wait "${tries[@]}"
        for place in "${!programs[@]}"; do cat "$room/$place/row"; done
    done
}

# Adds the relay $1 with the clients on the library $2, and our layer in the folder $3.
add() {
    local place=${#programs[@]} folder=$room
    [[ $2 == *"${WITH:-}"* ]] || return
    mkdir "$room/$place"
    ln -s "$room/server" "$3/our-server" "$room/$place"
    [ "$2" = libenet ] || folder=$3
    programs+=("$1")
    names+=("${1##*/} | $2")
    talkers+=("$folder/soak")
}

# Builds the layer over the archive $1 into the folder $2, and a relay and clients on it.
build_ours() {
    bash scripts/by-hand/build-c.sh "$2" "$1" > "$room/build" 2>&1 &&
        cc -std=gnu11 -O2 -Ic -o "$2/our-server" clients/server.c "$2/lib/libgofnjerta_enet.a" &&
        cc -std=gnu11 -O2 -Ic -o "$2/soak" clients/soak.c "$2/lib/libgofnjerta_enet.a" || { cat "$room/build" >&2; return 1; }
}

room=$(mktemp -d) || exit 1
trap 'rm -rf "$room"' EXIT
build_clients "$room" || exit 1
programs=()
names=()
talkers=()
add reference libenet "$room"
for server; do
    archive=crates/enet_c/out/libenet_c.a
    [[ $server != *=* ]] || archive=${server#*=}
    made=$room/made.${#programs[@]}
    build_ours "$archive" "$made" || exit 1
    server=${server%%=*}
    [ "$server" = reference ] || add "$server" libenet "$made"
    add "$server" ours "$made"
done
echo '| line | relay | clients | lost | came | unreliable | trips | drained | again | overfull | unordered | KB | MB |'
echo '|---|---|---|---|---|---|---|---|---|---|---|---|---|'
for seconds in 3 4 5 6; do
    for idle in 0 4 8; do
        line "down for $seconds s, $((8 - idle)) talk" 8 $((seconds + 10)) "idle $idle after 6" trip 20 down "${seconds}000"
    done
done
line '2 Mbit/s, nearly full' 8 30 'length 350 after 20' trip 20 rate 2000
line '10 % lost, 40 ms' 8 40 'after 20' trip 20 loss 10
line '20 % lost, 40 ms' 8 40 'after 20' trip 20 loss 20
for loss in 5 10 20 30; do
    line "$loss % lost, 100 ms" 8 40 'long 3000 after 40' trip 50 loss "$loss"
done
line '800 kbit/s' 8 30 'long 3000 after 90' trip 20 rate 800 queue 500
line '2 Mbit/s, long' 8 30 'long 3000 after 90' trip 20 rate 2000 queue 200
line '800 kbit/s, shallow queue' 8 30 'long 3000 after 90' trip 100 rate 800 queue 50
line 'reordering' 8 30 'long 3000 after 20' trip 20 jitter 60
line 'one byte, 800 kbit/s to the clients' 8 30 'length 1 plain 0 often 300 look 10 after 90' trip 20 inward 800 queue 500
line 'one of 32 on 400 kbit/s' 32 180 'length 400 plain 0 often 8 look 8 after 1' trip 20 thin 400 queue 500
line 'two bulk peers on 2 Mbit/s' 3 40 'length 20000 plain 0 often 13 idle 2 after 1 direct SERVER' trip 20 rate 2000 queue 200
line 'bulk on 20 Mbit/s, 100 ms' 2 20 'length 20000 plain 0 often 25 after 20' trip 50 rate 20000
line 'bulk on 20 Mbit/s, 100 ms, 1 % lost' 2 20 'length 20000 plain 0 often 25 after 20' trip 50 rate 20000 loss 1
