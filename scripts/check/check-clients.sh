#!/usr/bin/env bash
# Clients of the reference library talk through a relay, in the scenarios of clients/client.c: first straight, then by way of
# clients/proxy.c, which drops, repeats and reorders datagrams; eight by way of one that drops all for 4 seconds, in which no connection may
# end; and a crowd of them (clients/crowd.c) straight. These come to a server of one thread, and the crowd and some of the others to one of
# two, each of whose queues has 16 places for the crowd, so that both are full at once and neither thread may wait for the other. Clients of
# `demo` visit a server of the reference library, and so does `example_echo`, whose own server a client of that library visits
# (clients/echo.c). Three of that library play at `example_game` side by side until each has won (clients/guess.c), and it ends. Two guests
# (clients/guests.c) are told when a server ends after its turns, and when it ends since its relay found no memory; they notice nothing of
# receptions that fail (clients/faults.c). Each scenario has a server of its own, and all run side by side: `check-clients.sh [PROGRAM]`.
# PROGRAM is the built `enet_relay`, by default the one that `rt ci`, or `rt run` in crates/enet_relay, leaves; `reference` stands for the
# relay of clients/server.c, which tells whether the clients themselves are right. Prints what failed, and as last line 'N passed, M
# failed'; the status is 1 where one failed. It ends within 4 minutes, on a machine at rest.
cd "$(dirname "$0")/../.." || exit 1
. scripts/lib/clients.sh
. scripts/lib/tally.sh
program=${1:-crates/enet_relay/out/enet_relay}
example=crates/example_echo/out/example_echo
game=crates/example_game/out/example_game

# Waits until somebody has port $1, for a minute at most: a server or a proxy that was just started.
until_bound() {
    for _ in {1..600}; do
        grep -q ":$(printf '%04X' "$1") " /proc/net/udp && return
        sleep 0.1
    done
}

# Ends what an attempt started.
end_attempt() {
    kill $relay $proxy $client 2> /dev/null
    wait $relay $proxy $client 2> /dev/null
    relay=
    proxy=
    client=
}

# The scenario $2 with $3 clients and a relay of $4 slots, on ports $5 and $6. $1 is its name here, which says whether the way is lossy or
# has an outage; $7 seeds the proxy. The status is the client's, or 1 where the relay or the proxy ended; what went wrong is on standard output.
attempt() {
    local words=() line=() options=() places= to=$5 status
    # Packets of 4,096 pieces are longer than the server takes by itself.
    [ "$2" = large ] && options=(--max-packet 33554432 --max-waiting 33554432)
    [ "$program" = reference ] && words+=(reference)
    [ "$2" = crowd ] && places=16
    relay "$program" "$5" "$4" "$room" "$places" > /dev/null 2> "$room/$1.relay" &
    relay=$!
    until_bound "$5"
    if [[ $1 != *straight ]]; then
        to=$6
        if [[ $1 == *lossy ]]; then words+=(lossy); else line=(down 4000); fi
        "$room/proxy" "$6" "$5" "$7" "${line[@]}" 2> "$room/$1.proxy" &
        proxy=$!
        until_bound "$6"
    fi
    if [ "$2" = crowd ]; then
        timeout 330 "$room/crowd" "$to" "$3" 2 2> "$room/$1.client" &
    else
        timeout 330 "$room/client" "$to" "$2" "$3" "${words[@]}" 2> "$room/$1.client" &
    fi
    client=$!
    wait "$client"
    status=$?
    [ "$status" -eq 0 ] || echo "status $status: $(head -c 2000 "$room/$1.client")"
    kill -0 "$relay" 2> /dev/null || { echo "the relay ended: $(head -c 400 "$room/$1.relay")"; status=1; }
    [ -z "$proxy" ] || kill -0 "$proxy" 2> /dev/null || { echo "the proxy ended: $(<"$room/$1.proxy")"; status=1; }
    end_attempt
    return "$status"
}

# A scenario: what went wrong is in the files of its name, and the file NAME.passed is there where it passed. ENet ends a connection
# that stands still for 5 seconds, as a machine may that is busy; so where a client lost its connection or came too late (status 2),
# and only there, the scenario is tried once more.
scenario() {
    trap end_attempt EXIT
    trap 'exit 1' TERM
    attempt "$@" > "$room/$1.first"
    case $? in
        0) : > "$room/$1.passed" ;;
        2) attempt "$@" > "$room/$1.second" && : > "$room/$1.passed" ;;
    esac
}

# Starts the scenario $1 with $2 clients and a relay of $3 slots, straight, lossy or down for 4 seconds ($4), which serves in $5 threads where it is given.
start() {
    free_port
    local first=$port name=$1-$2${5:+-threads-$5}-$4
    free_port
    names+=("$name")
    THREADS=${5:-} scenario "$name" "$1" "$2" "$3" "$first" "$port" "${#names[@]}" &
}

# Clients of ours at a server of the reference library: the three packets of each come back to it.
visit() {
    trap end_attempt EXIT
    trap 'exit 1' TERM
    "$room/server" "$1" 2 2 echo 2> "$room/visit.server" &
    relay=$!
    until_bound "$1"
    local got='got 3 packets, the others sent 3'
    timeout 330 "$program" demo --clients 2 --port "$1" --turns 1000 > "$room/visit.out" 2> "$room/visit.err" &
    client=$!
    wait "$client"
    local status=$?
    if [ "$status" -eq 0 ] && [ "$(tail -n 3 "$room/visit.out" | tr '\n' ' ')" = "client 0 $got client 1 $got demo done " ]; then
        : > "$room/visit.passed"
    else
        echo "status $status: $(head -c 400 "$room/visit.out" "$room/visit.err" "$room/visit.server")" > "$room/visit.first"
    fi
}

# An echo server on port $3 and its visitor, the way $2, where lossy by a proxy on port $4: example_echo serves a client of the reference
# library (clients/echo.c) where $1 is `ours`, and visits a server of that library where it is `theirs`.
echo_both_ways() {
    trap end_attempt EXIT
    trap 'exit 1' TERM
    local name=echo-$1-$2 to=$3 status
    local server=("$example" serve "$3" 1000000) visitor=("$room/echo")
    [ "$1" = ours ] || { server=("$room/server" "$3" 2 2 echo); visitor=("$example" visit); }
    "${server[@]}" > "$room/$name.relay" 2>&1 &
    relay=$!
    until_bound "$3"
    if [ "$2" = lossy ]; then
        to=$4
        "$room/proxy" "$4" "$3" 7 2> "$room/$name.proxy" &
        proxy=$!
        until_bound "$4"
    fi
    timeout 330 "${visitor[@]}" "$to" > "$room/$name.client" 2>&1 &
    client=$!
    wait "$client"
    status=$?
    if [ "$status" -eq 0 ]; then
        : > "$room/$name.passed"
    else
        echo "status $status: $(head -c 400 "$room/$name.client" "$room/$name.relay")" > "$room/$name.first"
    fi
}

echoes() {
    local who way first
    for way in straight lossy; do
        for who in ours theirs; do
            free_port
            first=$port
            free_port
            names+=("echo-$who-$way")
            echo_both_ways "$who" "$way" "$first" "$port" &
        done
    done
}

# A server of example_game on port $2, and three players (clients/guess.c) side by side, the way $1, where lossy by a proxy on port $3. Each
# wins; the server ends once they have gone, at the latest when it gives one up for lost.
play() {
    trap end_attempt EXIT
    trap 'exit 1' TERM
    local name=game-$1 to=$2 status=0 player
    "$game" "$2" 500 3 300 > "$room/$name.relay" 2>&1 &
    relay=$!
    until_bound "$2"
    if [ "$1" = lossy ]; then
        to=$3
        "$room/proxy" "$3" "$2" 7 2> "$room/$name.proxy" &
        proxy=$!
        until_bound "$3"
    fi
    for player in 1 2 3; do
        timeout 330 "$room/guess" "$to" >> "$room/$name.client" 2>&1 &
        client="$client $!"
    done
    for player in $client $relay; do
        wait "$player" || status=$?
    done
    if [ "$status" -eq 0 ] && [ "$(<"$room/$name.relay")" = '3 won' ]; then
        : > "$room/$name.passed"
    else
        echo "status $status: $(head -c 400 "$room/$name.client" "$room/$name.relay")" > "$room/$name.first"
    fi
}

games() {
    local way first
    for way in straight lossy; do
        free_port
        first=$port
        free_port
        names+=("game-$way")
        play "$way" "$first" "$port" &
    done
}

# Starts a server on port $2 with the words from $4 on, whose memory and receptions fail when it is told, and two guests until $3. $1 is
# the scenario's name. Waits until the guests talk and the log has told both: it does so after 64 turns, which on a busy machine may come
# later, and a line for which there is no memory isn't written.
receive_guests() {
    LD_PRELOAD=$room/faults.so "$program" serve --port "$2" --log "${@:4}" > "$room/$1.out" 2> "$room/$1.err" &
    relay=$!
    until_bound "$2"
    timeout 330 "$room/guests" "$2" "$3" > "$room/$1.guests" 2> "$room/$1.client" &
    client=$!
    for _ in {1..600}; do
        [ -s "$room/$1.guests" ] && [ "$(grep -c '^connect ' "$room/$1.err")" = 2 ] && return
        sleep 0.1
    done
}

# Whether the guests ended well, and the file of the server's standard error $1.err begins and goes on as it must, with $2 ends of
# connections by the guests and the last line $3.
guests_fared() {
    wait "$client"
    local status=$? pattern='^listening at 127\.0\.0\.1:[0-9]+, 32 peers, 1056 slots, 2 channels, receive buffer [1-9][0-9]* bytes$'
    client=
    for _ in {1..600}; do
        [ "$(grep -Ec '^disconnect [01]\.0 ' "$room/$1.err")" -lt "$2" ] || [ "$(tail -n 1 "$room/$1.err")" != "${3:-$(tail -n 1 "$room/$1.err")}" ] || break
        sleep 0.1
    done
    sleep 1
    [ "$status" -eq 0 ] || { echo "the guests ended with status $status: $(head -c 400 "$room/$1.client")"; return 1; }
    head -n 1 "$room/$1.err" | grep -Eq "$pattern" || { echo "the first line is $(head -n 1 "$room/$1.err")"; return 1; }
    [ "$(grep -Ec '^connect [01]\.0 at 127\.0\.0\.1:[0-9]+ info 7$' "$room/$1.err")" = 2 ] || { echo "no line of two connections: $(head -c 400 "$room/$1.err")"; return 1; }
    [ "$(grep -Ec '^disconnect [01]\.0 at 127\.0\.0\.1:[0-9]+ info 5: asked there$' "$room/$1.err")" = "$2" ] || { echo "not $2 ends of connections"; return 1; }
    [ "$3" = '' ] || [ "$(tail -n 1 "$room/$1.err")" = "$3" ] || { echo "the last line is $(tail -n 1 "$room/$1.err")"; return 1; }
}

# Whether the server ended with status $2 in time, and wrote to standard output what begins with $3.
server_ended() {
    for _ in {1..600}; do
        kill -0 "$relay" 2> /dev/null || break
        sleep 0.1
    done
    kill -0 "$relay" 2> /dev/null && { echo 'the server goes on'; return 1; }
    wait "$relay"
    local status=$?
    relay=
    [ "$status" -eq "$2" ] || { echo "the server ended with status $status where $2 is wanted"; return 1; }
    [[ $(<"$room/$1.out") == "$3"* ]] || { echo "it wrote $(<"$room/$1.out")"; return 1; }
}

# What relays in a server of $2 threads finds no memory. If it is a thread of its own, it submits packets that follow one another together,
# and goes on one by one if there is no memory for that; if it is the only thread, most of its growths are of packets that come, which are
# sent again if one is refused. So growths are refused one by one until the server ends.
no_memory() {
    trap end_attempt EXIT
    trap 'exit 1' TERM
    local name=no-memory-$2 i
    if [ "$2" = 2 ]; then
        receive_guests "$name" "$1" told --forever --threads 2
    else
        FAULTS_ANYWHERE=1 receive_guests "$name" "$1" told --forever --threads 1
    fi
    # One or two do mostly. A server that ends for want of memory is left alone: it still has to tell its guests.
    for i in {1..1800}; do
        ! grep -q '^E1' "$room/$name.err" || break
        [ $((i % 30)) -ne 1 ] || kill -USR1 "$relay" 2> /dev/null || break
        sleep 0.1
    done
    guests_fared "$name" 0 'E1 Memory' > "$room/$name.first" || return
    server_ended "$name" 1 '' > "$room/$name.first" && : > "$room/$name.passed"
}

# The turns of a server of $2 threads are over.
turns_over() {
    trap end_attempt EXIT
    trap 'exit 1' TERM
    local name=turns-over-$2
    receive_guests "$name" "$1" told --turns 3000 --threads "$2"
    guests_fared "$name" 0 '' > "$room/$name.first" || return
    server_ended "$name" 0 'served 3000 received ' > "$room/$name.first" && : > "$room/$name.passed"
}

# Receptions of the socket of a server of $2 threads fail.
no_reception() {
    trap end_attempt EXIT
    trap 'exit 1' TERM
    local name=no-reception-$2
    receive_guests "$name" "$1" 100 --forever --threads "$2"
    for _ in 1 2 3; do
        kill -USR2 "$relay"
        sleep 0.2
    done
    guests_fared "$name" 2 '' > "$room/$name.first" || return
    kill -0 "$relay" 2> /dev/null && : > "$room/$name.passed"
}

# Scenarios of guests, each a function.
guests() {
    local threads
    for threads in 1 2; do
        names+=("no-memory-$threads" "turns-over-$threads" "no-reception-$threads")
        free_port
        no_memory "$port" "$threads" &
        free_port
        turns_over "$port" "$threads" &
        free_port
        no_reception "$port" "$threads" &
    done
}

# Each scenario: its name, the clients, the slots.
all() {
    local name clients slots way
    start crowd 300 300 straight
    start outage 8 8 down
    if [ "$program" != reference ]; then
        start crowd 300 300 straight 2
        start outage 8 8 down 2
        start talk 8 8 straight 2
        start talk 8 8 lossy 2
        start large 2 2 lossy 2
        free_port
        names+=(visit)
        visit "$port" &
        guests
        echoes
        games
    fi
    for way in straight lossy; do
        while read -r name clients slots; do
            start "$name" "$clients" "$slots" "$way"
        done << 'END'
talk 1 8
talk 2 8
talk 8 8
large 2 2
again 2 4
idle 2 2
vanish 3 2
full 5 4
END
    done
    wait
}

room=$(mktemp -d) || exit 1
trap 'kill $(jobs -p) 2> /dev/null; wait; rm -rf "$room"' EXIT
names=()
relay=
proxy=
client=
if [ "$program" != reference ] && ! [ -x "$program" -a -x "$example" -a -x "$game" ]; then
    fail "$program, $example or $game" "it isn't there: run 'rt ci', or 'rt run' in its folder"
elif ! build_clients "$room"; then
    fail clients "the C programs can't be built"
else
    all
    for name in "${names[@]}"; do
        if [ -e "$room/$name.passed" ]; then passed=$((passed + 1)); else fail "$name" "$(cat "$room/$name".{first,second} 2> /dev/null)"; fi
    done
fi
echo "$passed passed, $failed failed"
[ "$failed" -eq 0 ]
