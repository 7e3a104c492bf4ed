#!/usr/bin/env bash
# What the operator's lines to `enet_relay serve --control` do to clients of the reference library (clients/told.c): `peers` names them, `totals`
# counts them, `say` reaches each, `kick` ends one connection with its number and no other, `log` tells connections or no longer, and at `stop`
# all are told at once and the status is 0. And that nobody notices a standard error that nobody reads: 5,000 clients come and go
# (clients/passers.c) under `--log`, beside two that talk (clients/guests.c); once somebody reads, it is told how many lines weren't written.
# In one thread and in two: `check-operator.sh [PROGRAM]`. PROGRAM is the built `enet_relay`, by default the one that `rt ci`, or `rt run` in
# crates/enet_relay, leaves. Prints what failed, and as last line 'N passed, M failed'; the status is 1 where one failed. It takes a minute.
cd "$(dirname "$0")/../.." || exit 1
. scripts/lib/clients.sh
program=${1:-crates/enet_relay/out/enet_relay}
passed=0
failed=0

fail() {
    echo "FAILED $1 in $threads threads: $2"
    failed=$((failed + 1))
}

# Whether $2 is $3; the case is $1.
same() {
    if [ "$2" = "$3" ]; then passed=$((passed + 1)); else fail "$1" "'$2' where '$3' is wanted"; fi
}

# A server whose control is descriptor 8, and whose log goes to $1, with the words behind that, once it has its port. Its answers are in
# $room/out.
begin() {
    free_port
    exec 8<> "$room/control"
    : > "$room/out"
    [ -p "$1" ] || : > "$1"
    "$program" serve --port "$port" --forever --control --threads "$threads" --queue-capacity 1024 "${@:2}" <&8 > "$room/out" 2> "$1" &
    relay=$!
    until grep -q ":$(printf '%04X' "$port") " /proc/net/udp; do
        kill -0 "$relay" 2> "$room/gone" || { fail begin 'the server ended'; return; }
        sleep 0.1
    done
}

# Waits up to a minute until the file $2 has $3 lines like $1.
await() {
    for _ in {1..600}; do
        [ "$(grep -c -- "$1" "$2")" -lt "$3" ] || return 0
        sleep 0.1
    done
    fail "$1" "not $3 such lines in $(tail -n 5 "$2")"
}

# Says $1, and waits for the answer like $2, into `answer`.
say() {
    local before
    before=$(grep -c -- "$2" "$room/out")
    echo "$1" >&8
    await "$2" "$room/out" $((before + 1))
    answer=$(grep -- "$2" "$room/out" | tail -n 1)
}

# The lines of peers that the last answer to `peers` has.
last_peers() {
    awk '/^peer / { said = said $0 "\n"; next } /^peers / { last = said } { said = "" } END { printf "%s", last }' "$room/out"
}

# Asks for the peers until there are $2, and $3 of their lines are like $4; the case is $1.
peers_become() {
    for _ in {1..600}; do
        say peers '^peers [0-9]*$'
        [ "$answer $(last_peers | grep -c -- "$4")" != "peers $2 $3" ] || break
        sleep 0.1
    done
    same "$1" "$answer $(last_peers | grep -c -- "$4")" "peers $2 $3"
}

# Ends the server by `stop`, which waits a second for those who don't answer, and 30 for nobody; the case is $1.
stop() {
    local begun=$SECONDS
    echo stop >&8
    wait "$relay"
    same "$1" "$? $(tail -n 1 "$room/out")" '0 stopping'
    [ $((SECONDS - begun)) -le 20 ] || fail "$1" "it took $((SECONDS - begun)) seconds"
    relay=
    exec 8>&-
}

# How many lines of the clients are like $1.
heard() {
    grep -c -- "$1" "$room/heard"
}

lines() {
    local peer clients
    begin "$room/log"
    await '^listening' "$room/log" 1
    : > "$room/heard"
    "$room/told" "$port" 3 600 > "$room/heard" 2>&1 &
    clients=$!
    await ' connected$' "$room/heard" 3
    # The throttle falls after a round trip that took long, and rises again.
    peers_become peers 3 3 '^peer [0-9]*\.[0-9]* at 127\.0\.0\.1:[0-9]* for [0-9]* s round trip [0-9]* ms throttle 32 in transit [0-9]* bytes allowance [0-9]* waiting [0-9]* bytes sent 0 resent 0$'
    peer=$(last_peers | awk '{ print $2; exit }')
    say totals '^peers [0-9]* in '
    same totals "$(sed -E 's/ (in|bytes|out) [0-9]+/ \1 N/g' <<< "$answer")" 'peers 3 in N bytes N out N bytes N lost 0 refused 0 waiting orders 0 events 0'
    say 'say hello  all of you' '^said'
    same say "$answer" 'said to 3'
    await ' got ' "$room/heard" 3
    same say-heard "$(heard '^[0-2] got hello  all of you$')" 3
    say "kick $peer 7" "^kicked $peer"
    await ' ended ' "$room/heard" 1
    peers_become peers-sends 2 2 ' sent [1-9][0-9]* resent [0-9]*$'
    say "kick $peer 7" '^no peer'
    same kick-again "$answer" "no peer $peer"
    same kick "$(heard ' ended 7$') $(heard ' ended ')" '1 1'
    log
    stop stop
    await ' ended 0$' "$room/heard" 2
    wait "$clients"
    same told "$? $(heard ' ended 0$')" '0 2'
}

# One client comes and goes before `log on`, one behind it, and one behind `log off`.
log() {
    local said
    pass_by
    say 'log on' '^log on'
    pass_by
    await '^disconnect ' "$room/log" 1
    say 'log off' '^log off'
    pass_by
    said="$(grep -c '^connect ' "$room/log") $(grep -c '^disconnect ' "$room/log")"
    same log "$said" '1 1'
}

# A client comes and goes, beside the two that stay.
pass_by() {
    "$room/passers" "$port" 1 120 > "$room/passed"
    peers_become passer 2 2 '^peer '
}

# A standard error that nobody reads while 5,000 clients come and go, and then somebody does.
unread() {
    local guests reader
    mkfifo "$room/errors"
    exec 7<> "$room/errors"
    begin "$room/errors" --log --peers 200
    : > "$room/guests.out"
    timeout 660 "$room/guests" "$port" told > "$room/guests.out" 2> "$room/guests.err" &
    guests=$!
    await '^talking$' "$room/guests.out" 1
    same passers "$(timeout 660 "$room/passers" "$port" 5000 600)" '5000 passed'
    kill -0 "$guests" 2> "$room/gone" || fail unread "$(<"$room/guests.err")"
    : > "$room/read"
    cat <&7 > "$room/read" &
    reader=$!
    await ' more$' "$room/read" 1
    kill "$reader"
    wait "$reader" 2> "$room/gone"
    grep -q ' more$' "$room/read" && passed=$((passed + 1))
    [ "$(grep -c '^connect ' "$room/read")" -lt 5000 ] && passed=$((passed + 1)) || fail unread 'the pipe took all'
    stop unread-stop
    wait "$guests"
    same unread-guests "$? $(<"$room/guests.err")" '0 '
    exec 7>&-
    rm "$room/errors"
}

room=$(mktemp -d) || exit 1
relay=
threads=1
trap 'kill $relay $(jobs -p) 2> /dev/null; wait; rm -rf "$room"' EXIT
mkfifo "$room/control"
if [ ! -x "$program" ]; then
    fail "$program" "it isn't there: run 'rt ci', or 'rt run' in crates/enet_relay"
elif ! build_clients "$room"; then
    fail clients "the C programs can't be built"
else
    for threads in 1 2; do
        lines
        unread
    done
fi
echo "$passed passed, $failed failed"
[ "$failed" -eq 0 ]
