#!/usr/bin/env bash
# Measures `enet_relay serve` side by side with a relay of the same rule over the reference library (clients/server.c), with the clients
# of clients/load.c: `bench.sh [PROGRAM] [SECONDS] [slots | calls | broadcast | options]`. Where PROGRAM is `layer`, clients/server.c over our
# layer (c/enet) stands in the place of `serve`, in one thread as over the reference library; it needs crates/enet_c/out/libenet_c.a, which
# `rt lib` makes there, and tells first what an idle call of the C library takes. For each number of clients, size and kind of packet, both
# relays are measured one after the other, SECONDS each for the trip at light load and for the most that goes through (2 where it isn't
# given). Prints a table; in each cell ours stands first.
#
# With `slots` the table is one of 8 clients that talk, reliably and 32 bytes a packet, among 40, 400 and 4,000 slots, and among 400 clients
# that only listen. With `calls` it is one of what a packet of 32 bytes takes, reliably, with 1, 8, 32 and 200 clients: `serve` in one thread
# and in two, and the relay over the reference library. With `layer` and `broadcast` it is one of a server that tells 64 or 200 clients of the
# reference library 100 bytes 60 times a second (clients/tell.c): what each broadcast takes with all that comes of it, in processor time and,
# in a second run, which takes valgrind, in instructions outside the system. With `options` `serve` is measured beside itself with the limits
# of admission, `--metrics` and `--control`, ROUNDS times (3 where that isn't set) by turns, at each number, size and kind: packets a second of
# processor time, without and with them, and the least, median and greatest ratio; it fails where a median is above 1.05.
#
# Where PROCESSOR is set, each relay runs on that processor alone; where THREADS is set, `serve` serves in so many threads (1 or 2; else 1).
# Proves nothing, and takes some minutes.
cd "$(dirname "$0")/../.." || exit 1
. scripts/lib/clients.sh
program=${1:-crates/enet_relay/out/enet_relay}
seconds=${2:-2}
room=$(mktemp -d) || exit 1
trap 'rm -rf "$room"; kill $relay 2> /dev/null' EXIT
relay=
build_clients "$room" || exit 1
if [ "$program" = layer ]; then
    bash scripts/by-hand/build-c.sh "$room/made" crates/enet_c/out/libenet_c.a > "$room/build" 2>&1 &&
        cc -std=gnu11 -O2 -Ic -o "$room/our-server" clients/server.c "$room/made/lib/libgofnjerta_enet.a" &&
        cc -std=gnu11 -O2 -Ic -o "$room/our-tell" clients/tell.c "$room/made/lib/libgofnjerta_enet.a" &&
        cc -std=gnu11 -O2 -Ic -o "$room/idle" c/tests/idle.c "$room/made/lib/libgofnjerta.a" && "$room/idle" || { cat "$room/build" >&2; exit 1; }
elif [ ! -x "$program" ]; then
    echo "$program isn't there: run 'rt ci', or 'rt run' in crates/enet_relay" >&2
    exit 1
fi

# What load.c says of the relay $1 with $2 slots, $3 clients, $4 bytes, channel $5, and $6 talkers where it is given.
measure() {
    free_port
    relay "$1" "$port" "$2" "$room" > /dev/null 2> "$room/relay" &
    relay=$!
    timeout 120 "$room/load" "$port" "$relay" "$3" "$4" "$5" "$seconds" ${6:+"$6"} 2> "$room/load.err" ||
        { cat "$room/load.err" >&2; echo '0 0 0 0'; }
    kill "$relay"
    wait "$relay" 2> /dev/null
    relay=
}

# A line of the table, that begins with $1, of both relays measured with the rest.
row() {
    local begins=$1
    shift
    measure "$program" "$@" > "$room/ours"
    measure reference "$@" > "$room/theirs"
    awk -v begins="$begins" '
        { each[NR] = $1; of_time[NR] = $2; median[NR] = $3; tail[NR] = $4 }
        END {
            ratio = of_time[2] > 0 ? sprintf("%.2f", of_time[1] / of_time[2]) : "none"
            printf "| %s | %s, %s | %s, %s | %s | %s, %s; %s, %s |\n", begins, each[1], each[2],
                of_time[1], of_time[2], ratio, median[1], tail[1], median[2], tail[2]
        }' "$room/ours" "$room/theirs"
}

# Prints how many broadcasts the program $1 made to $2 clients, reliable ones where $3 is 1, and how many microseconds of processor time each
# took; run by the words from $4 on. 0 0 where a reliable one didn't come to all.
tell() {
    local program=$room/$1 peers=$2 kind=$3 came count took
    shift 3
    free_port
    "$@" "$program" serve "$port" "$peers" "$kind" "$seconds" > "$room/told" 2> "$room/relay" &
    relay=$!
    until grep -q ":$(printf '%04X' "$port") " /proc/net/udp || ! kill -0 "$relay" 2> /dev/null; do sleep 0.1; done
    came=$(timeout $((seconds + 90)) "$room/tell" listen "$port" "$peers")
    for _ in {1..100}; do [ ! -s "$room/told" ] || break; sleep 0.1; done
    kill "$relay" 2> /dev/null
    wait "$relay"
    relay=
    read -r count took < "$room/told" || { cat "$room/relay" >&2; count=0; }
    [ "$kind" = 0 ] || [ "${came:-0}" = $((count * peers)) ] || { echo "$came of $((count * peers)) came" >&2; count=0; }
    [ "$count" -gt 0 ] && echo "$count $took" || echo '0 0'
}

# The same, with the instructions of a broadcast in the processor time's place.
count_instructions() {
    local all
    all=$(tell "$@" valgrind --tool=callgrind --toggle-collect=tell_all --callgrind-out-file=/dev/null)
    echo "${all% *} $(awk -v count="${all% *}" '/Collected/ { print (count > 0 ? int($NF / count) : 0) }' "$room/relay")"
}

tell_row() {
    tell our-tell "$1" "$2" > "$room/ours"
    tell tell "$1" "$2" > "$room/theirs"
    count_instructions our-tell "$1" "$2" >> "$room/ours"
    count_instructions tell "$1" "$2" >> "$room/theirs"
    paste "$room/ours" "$room/theirs" | awk -v begins="$1 | $([ "$2" = 1 ] || echo un)reliable" '
        { ours[NR] = $2; theirs[NR] = $4; ratio[NR] = $4 > 0 && $2 > 0 ? sprintf("%.2f", $2 / $4) : "none" }
        END { printf "| %s | %s, %s | %s | %s, %s | %s |\n", begins, ours[1], theirs[1], ratio[1], ours[2], theirs[2], ratio[2] }'
}

if [ "${3:-}" = broadcast ]; then
    [ "$program" = layer ] && command -v valgrind > /dev/null || { echo "it takes 'layer' and valgrind" >&2; exit 1; }
    printf '| clients | kind | µs of processor time a broadcast | ratio | instructions a broadcast | ratio |\n|---|---|---|---|---|---|\n'
    for clients in 64 200; do
        tell_row "$clients" 1
        tell_row "$clients" 0
    done
    exit
fi

# A line of the table of options, that begins with $1: both measured with the rest, by turns. Whether no more is taken than a twentieth.
options_row() {
    local begins=$1 round
    shift
    : > "$room/turns"
    for ((round = 0; round < ${ROUNDS:-3}; round++)); do
        options=()
        measure "$program" "$@" > "$room/without"
        options=(--per-address 4095 --connects-per-address 1000 --connects-per-second 1000 --ban 192.0.2.1 --metrics "127.0.0.1:$port" --control)
        measure "$program" "$@" > "$room/with"
        paste "$room/without" "$room/with" >> "$room/turns"
    done
    awk '$2 > 0 && $6 > 0 { printf "%.4f %d %d %d %d\n", $2 / $6, $2, $6, $3, $7 }' "$room/turns" | sort -n | awk -v begins="$begins" -v rounds="${ROUNDS:-3}" '
        { ratio[NR] = $1; line[NR] = $0 }
        END {
            if (NR < rounds) { printf "| %s | %d of %d turns came to no end |\n", begins, rounds - NR, rounds; exit 1 }
            split(line[int((NR + 1) / 2)], middle)
            printf "| %s | %d, %d | %.2f, %.2f, %.2f | %d, %d |\n", begins, middle[2], middle[3], ratio[1], middle[1], ratio[NR], middle[4], middle[5]
            exit middle[1] > 1.05
        }'
}

if [ "${3:-}" = options ]; then
    printf '| clients | bytes | kind | packets a second of processor time, without and with | processor time with them: least, median, most | trip: median (µs), without and with |\n|---|---|---|---|---|---|\n'
    dearer=0
    for clients in 1 8 32; do
        for size in 32 1000 20000; do
            options_row "$clients | $size | reliable" 40 "$clients" "$size" 0 || dearer=$((dearer + 1))
            options_row "$clients | $size | unreliable" 40 "$clients" "$size" 1 || dearer=$((dearer + 1))
        done
    done
    echo "$dearer of 18 are dearer by over a twentieth"
    exit $((dearer > 0))
fi

# A line of the table of calls: of the program $1 with $2 clients, in $3 threads, which is called $4.
calls_row() {
    free_port
    rm -f "$room/calls"
    LD_PRELOAD=$room/calls.so CALLS=$room/calls THREADS=$3 relay "$1" "$port" 300 "$room" > /dev/null 2> "$room/relay" &
    relay=$!
    timeout 120 "$room/load" "$port" "$relay" "$2" 32 0 "$seconds" "$2" "$room/calls" 2> "$room/load.err" | awk -v begins="$2 | $4" '
        { printf "| %s | %s | %s | %s, %s | %s, %s |\n", begins, $5, $6, $7, $8, $3, $4 }
        END { exit NR == 0 }' || cat "$room/load.err" >&2
    kill "$relay"
    wait "$relay" 2> /dev/null
    relay=
}

if [ "${3:-}" = calls ]; then
    echo '| clients | server | sends for 1,000 packets | receptions | ns a packet: outside the system, inside | trip: median, 99th percentile (µs) |'
    echo '|---|---|---|---|---|---|'
    for clients in 1 8 32 200; do
        calls_row "$program" "$clients" 1 'one thread'
        calls_row "$program" "$clients" 2 'two threads'
        calls_row reference "$clients" 1 libenet
    done
    exit
fi

figures='packets delivered a second | packets a second of processor time | ratio | trip: median, 99th percentile (µs) |'
if [ "${3:-}" = slots ]; then
    printf '| clients, slots | %s\n|---|---|---|---|---|\n' "$figures"
    for slots in 40 400 4000; do
        row "8, $slots" "$slots" 8 32 0
    done
    row '8 and 400 that listen, 420' 420 408 32 0 8
    exit
fi
printf '| clients | bytes | kind | %s\n|---|---|---|---|---|---|---|\n' "$figures"
for clients in 1 8 32; do
    for size in 32 1000 20000; do
        row "$clients | $size | reliable" 40 "$clients" "$size" 0
        row "$clients | $size | unreliable" 40 "$clients" "$size" 1
    done
done
