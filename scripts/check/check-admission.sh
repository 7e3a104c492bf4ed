#!/usr/bin/env bash
# Whom `enet_relay serve` lets in: clients of the reference library (clients/knock.c) at several addresses of 127.0.0.0/8, and a sender of
# CONNECTs that nobody stands behind (clients/forge.c), under `--per-address`, `--connects-per-address`, `--connects-per-second`, `--ban` and
# the control lines `ban` and `unban`, what `--mtu` grants and `--max-packet` takes (clients/steady.c), and what clients within and beyond the
# share of `--packets-per-client` and `--bytes-per-client` get through (clients/loud.c), in one thread and in two: `check-admission.sh
# [PROGRAM]`. PROGRAM is the built `enet_relay`, by default the one that `rt ci`, or `rt run` in crates/enet_relay, leaves. Prints what failed,
# and as last line 'N passed, M failed'; the status is 1 where one failed. It takes three minutes.
cd "$(dirname "$0")/../.." || exit 1
. scripts/lib/clients.sh
. scripts/lib/tally.sh
program=${1:-crates/enet_relay/out/enet_relay}

# A server with the words from $1 on, whose control is descriptor 8 and whose log is $room/log.
begin() {
    free_port
    exec 8<> "$room/control"
    : > "$room/log" # what the last one said
    "$program" serve --port "$port" --forever --log --control --threads "$threads" --queue-capacity 1024 "$@" <&8 > "$room/out" 2> "$room/log" &
    relay=$!
    until grep -qs '^listening at' "$room/log"; do
        kill -0 "$relay" 2> "$room/gone" || { fail begin "$(<"$room/log")"; return; }
        sleep 0.1
    done
}

finish() {
    kill "$relay" 2> /dev/null
    wait "$relay" 2> /dev/null
    relay=
    exec 8>&-
}

# Clients at the address $1, $2 of them, for $3 seconds, as background job; what they say is in the file of the name $4. Behind it may stand
# `mtu`, and `in`: then the seconds begin when all are in.
knock() {
    "$room/knock" "$port" "$1" "$2" "$3" "${@:5}" > "$room/$4" 2>&1 &
    knocking+=($!)
}

await() {
    wait "${knocking[@]}"
    knocking=()
}

# The same of the clients that were started last; `leave` has them leave before.
await_last() {
    wait "${knocking[-1]}"
    unset 'knocking[-1]'
}

leave() {
    kill "${knocking[-1]}"
    await_last
}

# CONNECTs that nobody stands behind, $1 a second from 127.0.0.9, until the function is called with `end`.
forge() {
    if [ "$1" = end ]; then
        kill "$forging"
        wait "$forging" 2> "$room/gone"
        forging=
        return
    fi
    "$room/forge" "$port" "$1" 600 127.0.0.9 > "$room/forged" &
    forging=$!
    sleep 1
}

# Whether the file $2 says $3; the case is $1.
says() {
    if [ "$(<"$room/$2")" = "$3" ]; then
        passed=$((passed + 1))
    else
        fail "$1 in $threads threads" "$2 says '$(<"$room/$2")' where '$3' is wanted: $(tail -n 3 "$room/log" "$room/out")"
    fi
}

# Waits until standard output has a line like $1.
answered() {
    for _ in {1..600}; do
        grep -q "$1" "$room/out" && return
        sleep 0.1
    done
    fail "$2" "no answer like $1: $(<"$room/out")"
}

# How many clients at the address $1 the server has, into `there`.
look() {
    local before answer
    before=$(wc -l < "$room/out")
    echo peers >&8
    for _ in {1..600}; do
        answer=$(tail -n "+$((before + 1))" "$room/out")
        grep -q '^peers ' <<< "$answer" && break
        sleep 0.1
    done
    there=$(grep -c " at ${1//./\\.}:" <<< "$answer")
}

# Whether the server has $3 clients at the address $2; the case is $1.
has() {
    look "$2"
    if [ "$there" = "$3" ]; then passed=$((passed + 1)); else fail "$1 in $threads threads" "$there at $2 where $3 are wanted"; fi
}

# Waits until it has so many.
comes_to_have() {
    for _ in {1..300}; do
        look "$2"
        [ "$there" != "$3" ] || break
        sleep 0.2
    done
    has "$@"
}

# Two of an address are in at most, whatever their ports and however many ask at once; another address has its own two. (One that was answered
# and gave way before it confirmed believes for a while that it is in.) Where two are in, those that come later get no answer, and end nobody;
# once both have gone, another gets in.
per_address() {
    begin --per-address 2
    knock 127.0.0.2 2 600 two
    knock 127.0.0.1 5 600 five
    comes_to_have per-address-at-once 127.0.0.1 2
    comes_to_have per-address-at-once 127.0.0.2 2
    sleep 1
    has per-address-no-more 127.0.0.1 2
    has per-address-no-more 127.0.0.2 2
    leave
    comes_to_have per-address-gone 127.0.0.1 0
    knock 127.0.0.1 1 600 first
    comes_to_have per-address-first 127.0.0.1 1
    knock 127.0.0.1 1 600 second
    comes_to_have per-address-second 127.0.0.1 2
    knock 127.0.0.1 3 2 late
    await_last
    says per-address late '0 connected 0 ended'
    for _ in first second two; do leave; done
    says per-address two '2 connected 0 ended'
    says per-address first '1 connected 0 ended'
    says per-address second '1 connected 0 ended'
    comes_to_have per-address-all-gone 127.0.0.1 0
    knock 127.0.0.1 1 0 again in
    await
    says per-address-again again '1 connected 0 ended'
    finish
}

# CONNECTs that are forged from an address, fewer than it may have within a round trip, keep nobody out there.
forged_from_its_own() {
    begin --per-address 4
    forge 20
    knock 127.0.0.9 1 2 own in
    await
    says forged-from-its-own own '1 connected 0 ended'
    forge end
    finish
}

# A flood from one address takes two slots of 16: who comes from elsewhere gets in.
forged_from_one() {
    begin --peers 16 --per-address 2
    forge 500
    knock 127.0.0.1 2 3 honest in
    knock 127.0.0.2 2 3 honest-too in
    await
    says forged-from-one honest '2 connected 0 ended'
    says forged-from-one honest-too '2 connected 0 ended'
    forge end
    finish
}

# Whether of the clients whose words are in the files from $5 on as many are connected as $3 in each second allow, at least those of one second,
# where they knocked for $2 milliseconds; the case is $1. Each asks at once, after half a second and after one and a half, so that two and a
# half seconds have three in which it asks. $4 is how many asked.
are_in() {
    local in seconds=3
    [ "$2" -lt 2500 ] || seconds=$(($2 / 1000 + 2))
    in=$(awk '{ in_all += $1 } END { print in_all + 0 }' "${@:5}")
    if [ "$in" -ge "$3" ] && [ "$in" -le $(($3 * seconds)) ] && [ "$in" -le "$4" ]; then
        passed=$((passed + 1))
    else
        fail "$1 in $threads threads" "$in got in within $2 ms"
    fi
}

milliseconds() {
    echo $((${EPOCHREALTIME/[.,]/} / 1000))
}

# Waits until the server has as many clients at addresses like $2 as $3, and until two seconds have passed since $1, by `milliseconds`.
two_seconds() {
    for _ in {1..600}; do
        look "$2"
        [ "$there" -lt "$3" ] || [ $(($(milliseconds) - $1)) -lt 2000 ] || break
        sleep 0.1
    done
    while [ $(($(milliseconds) - $1)) -lt 2000 ]; do sleep 0.05; done
}

# Four tries of an address within a second pass, of another four, too; of those that don't, four pass by a later try.
connects_per_address() {
    local begun
    begin --connects-per-address 4
    begun=$(milliseconds)
    knock 127.0.0.1 20 600 many
    knock 127.0.0.2 4 0 few in
    await_last
    two_seconds "$begun" 127.0.0.1 4
    leave
    says connects-per-address few '4 connected 0 ended'
    are_in connects-per-address $(($(milliseconds) - begun)) 4 20 "$room/many"
    finish
}

# Of 20 tries at once three pass within each second, whoever they are.
connects_per_second() {
    local i begun
    begin --connects-per-second 3
    begun=$(milliseconds)
    for i in {1..20}; do
        knock "127.0.1.$i" 1 600 "knock-$i"
    done
    two_seconds "$begun" '127.0.1.[0-9]*' 3
    kill "${knocking[@]}"
    begun=$(($(milliseconds) - begun))
    await
    are_in connects-per-second "$begun" 3 20 "$room"/knock-*
    finish
}

# Nobody from a banned address gets in, and others do. `unban` lets it in, and `ban` ends what is connected from there.
ban() {
    begin --ban 127.0.0.3 --ban 127.0.0.4
    knock 127.0.0.3 2 2 banned
    knock 127.0.0.4 1 2 banned-too
    knock 127.0.0.5 1 0 other in
    await
    says ban banned '0 connected 0 ended'
    says ban banned-too '0 connected 0 ended'
    says ban other '1 connected 0 ended'
    echo 'unban 127.0.0.3' >&8
    answered '^unbanned 127.0.0.3$' unban
    knock 127.0.0.3 2 600 unbanned
    comes_to_have unbanned 127.0.0.3 2
    echo 'ban 127.0.0.3' >&8
    answered '^banned 127.0.0.3 kicked 2$' ban
    comes_to_have banned-at-once 127.0.0.3 0
    sleep 1
    leave
    says unban-and-ban unbanned '0 connected 2 ended'
    knock 127.0.0.3 1 2 banned-again
    await
    says ban-again banned-again '0 connected 0 ended'
    finish
}

# A client that asks for 1,392 bytes is granted those of `--mtu`.
mtu() {
    begin --mtu 600
    knock 127.0.0.1 1 0 small mtu in
    await
    says mtu small $'1 connected 0 ended\nmtu 600'
    finish
}

# Packets of as many bytes as `--max-packet` says are taken, longer ones aren't. Clients that send longer ones give up their connection after
# five seconds, and not before.
longest_packet() {
    local begun lost=0
    begin --max-packet 1000
    timeout 120 "$room/steady" "$port" 2 1 1000 0 5 > "$room/packets-1000" 2>&1
    begun=$(milliseconds)
    timeout 120 "$room/steady" "$port" 2 1 1001 0 1 > "$room/packets-1001" 2>&1
    [ $(($(milliseconds) - begun)) -lt 5000 ] || lost='[0-9]+'
    grep -Eq '^lost 0 and 0, came ([1-9][0-9]*) of \1 and [1-9]' "$room/packets-1000" && passed=$((passed + 1)) ||
        fail "longest-packet in $threads threads" "$(<"$room/packets-1000")"
    grep -Eq "^lost $lost and 0, came 0 of [1-9][0-9]* and 0," "$room/packets-1001" && passed=$((passed + 1)) ||
        fail "longer-packet in $threads threads" "$(<"$room/packets-1001")"
    finish
}

# Has a client of clients/loud.c send for $2 seconds $3 packets of $4 bytes a second, of the kind $5, as background job; what it says is in the
# file of the name $1.
loud() {
    "$room/loud" "$port" "${@:2}" > "$room/$1" 2>&1 &
    knocking+=($!)
}

# Whether the file $2 says that at least $3 and at most $4 packets came, and what became of their sender, as the pattern $5 has it; the case is
# $1. (Until the server has looked at who is connected, in a third of a second at most, nothing counts.)
heard() {
    local sent came rest
    read -r _ sent _ came _ _ rest < "$room/$2"
    if [[ $came -ge $3 && $came -le $4 && $rest =~ ^$5$ ]]; then passed=$((passed + 1)); else fail "$1 in $threads threads" "$2 says '$(<"$room/$2")'"; fi
}

# Of two that talk at once one stays within the share, and all of it comes. Of the other, which sends nearly twice its share unreliably, as much
# comes as two seconds allow at once and the seconds after them, and it stays.
share() {
    begin --packets-per-client 50
    loud within 6 40 20 reliable
    loud beyond 6 90 20 unreliable
    await
    heard share within 239 240 stayed
    heard share beyond 300 500 stayed
    grep -Eq '^beyond its share [0-9]+\.0 at 127\.0\.0\.1:[0-9]+ packets [1-9][0-9]*$' "$room/log" && passed=$((passed + 1)) ||
        fail "share in $threads threads" "the log names nobody: $(<"$room/log")"
    finish
}

# Who sends ten times its share is ended after some five seconds and told why; what came until then is within the share. So it is by bytes, too.
# Of reliable packets fewer come than pass: those behind a packet that didn't pass wait for it, and 184 to 358 came of 445 to 640 that passed.
# At least half of a burst comes: on a busy machine a packet is sent again before its acknowledgement comes, passes twice, and counts twice.
too_loud() {
    begin --packets-per-client 50
    loud ten-times 20 500 20 reliable
    loud unreliably 20 500 20 unreliable
    await
    heard too-loud ten-times 50 600 'ended 4294967293 after [5-9]\.[0-9] s'
    heard too-loud unreliably 100 700 'ended 4294967293 after [5-9]\.[0-9] s'
    grep -Eq '^too loud [0-9]+\.0 at 127\.0\.0\.1:[0-9]+ info 4294967293$' "$room/log" && passed=$((passed + 1)) ||
        fail "too-loud in $threads threads" "the log names nobody: $(<"$room/log")"
    finish
    begin --bytes-per-client 10000
    loud bytes 20 100 1000 reliable
    await
    heard too-loud bytes 20 120 'ended 4294967293 after [5-9]\.[0-9] s'
    finish
}

# With none of these options all get in.
no_rule() {
    begin
    knock 127.0.0.1 20 0 twenty in
    await
    says no-rule twenty '20 connected 0 ended'
    finish
}

room=$(mktemp -d) || exit 1
relay=
forging=
knocking=()
trap 'kill $relay $(jobs -p) 2> /dev/null; wait; rm -rf "$room"' EXIT
mkfifo "$room/control"
if [ ! -x "$program" ]; then
    fail "$program" "it isn't there: run 'rt ci', or 'rt run' in crates/enet_relay"
elif ! build_clients "$room"; then
    fail clients "the C programs can't be built"
else
    for threads in 1 2; do
        no_rule
        per_address
        forged_from_one
        forged_from_its_own
        connects_per_address
        connects_per_second
        ban
        mtu
        longest_packet
        share
        too_loud
    done
fi
echo "$passed passed, $failed failed"
[ "$failed" -eq 0 ]
