#!/usr/bin/env bash
# Asks `enet_relay serve --metrics` for its figures while 32 clients of the reference library talk (clients/tally.c), and compares these with
# what the clients counted; sends it datagrams that it must stop, and requests that it must refuse; has 80 ask nothing for six seconds, and then
# somebody at another address open a thousand connections a second, and others get their answer meanwhile; forges CONNECTs (clients/forge.c), whose slots must be told as half-open ones, and free again, and the
# answers to them as sent again, and as root one from port 0, which must do nothing; stops clients, to whom what others say must stay in
# transit; has some talk over a line that loses (clients/proxy.c), on which some of what is under way must be told as sent again; and stops
# the thread of the service alone (clients/hold.c), of which /healthz must tell. Each figure that the dashboard of deploy/grafana asks for
# must be told (dashboard.py). In one thread and in two: `check-metrics.sh [PROGRAM]`. PROGRAM is the built `enet_relay`, by default the one
# that `rt ci`, or `rt run` in crates/enet_relay, leaves. Prints what failed, and as last line 'N passed, M failed'; the status is 1 where
# one failed. It takes two and a half minutes.
cd "$(dirname "$0")/../.." || exit 1
. scripts/lib/clients.sh
. scripts/lib/tally.sh
program=${1:-crates/enet_relay/out/enet_relay}

fail() {
    echo "FAILED $1 in $threads threads: $2"
    failed=$((failed + 1))
}

# Whether $2 is $3; the case is $1.
same() {
    if [ "$2" = "$3" ]; then passed=$((passed + 1)); else fail "$1" "'$2' where '$3' is wanted"; fi
}

begin() {
    free_port
    "$program" serve --port "$port" --forever --peers 64 --queue-capacity 1024 --metrics "127.0.0.1:$port" --threads "$threads" --log > "$room/out" 2> "$room/err" &
    relay=$!
    for _ in {1..600}; do
        [ -n "$(ask 'GET /healthz' 2> /dev/null)" ] && return
        sleep 0.1
    done
    fail begin "$(<"$room/err")"
}

finish() {
    kill "$relay" 2> /dev/null
    wait "$relay" 2> /dev/null
    relay=
}

# The answer to the request line $1, without its version, within twenty seconds. It is sent $2 seconds after the connection, at once where $2
# isn't there.
ask() {
    timeout 20 bash -c 'exec 3<> "/dev/tcp/127.0.0.1/$0" && sleep "$2" && printf "%s HTTP/1.1\r\nHost: here\r\n\r\n" "$1" >&3 && cat <&3' \
        "$port" "$1" "${2:-0}" | tr -d '\r'
}

# The status of the answer.
status() {
    head -n 1 <<< "$1" | cut -d ' ' -f 2
}

# The figure $1 of the answer $2.
figure() {
    awk -v name="$1" '$1 == name { print $2 }' <<< "$2"
}

# How many slots are free, spent, connecting, answering, connected and leaving, by the answer $1.
slots() {
    local state
    for state in free spent connecting answering connected leaving; do
        figure "enet_slots_by_state{state=\"$state\"}" "$1"
    done | paste -sd ' '
}

# Asks until the slots are $2, for $3 seconds at most; the case is $1.
slots_become() {
    local told
    for ((i = 0; i < $3 * 5; i++)); do
        told=$(slots "$(ask 'GET /metrics')")
        [ "$told" != "$2" ] || break
        sleep 0.2
    done
    same "$1" "$told" "$2"
}

# How many commands under way were sent more than once.
sent_again() {
    figure enet_sent_again "$(ask 'GET /metrics')"
}

# How many commands with data went that ask for an acknowledgement, and how many of these times again, by the answer $1.
sends() {
    figure enet_sends_total "$1"
}

resends() {
    figure enet_resends_total "$1"
}

# A CONNECT from port 0. Nothing can be sent to that port, so it must do nothing. It takes a raw socket, so root; else none goes.
from_port_zero() {
    [ "$EUID" -eq 0 ] || return
    python3 - "$port" << 'END' || fail port-zero "it can't be sent"
import socket, struct, sys
connect = struct.pack(">HHBBHHBB10I", 0x8FFF, 0, 0x82, 0xFF, 1, 0, 0xFF, 0xFF, 1392, 65536, 2, 0, 0, 5000, 2, 2, 7, 0)
datagram = struct.pack(">4H", 0, int(sys.argv[1]), 8 + len(connect), 0) + connect
socket.socket(socket.AF_INET, socket.SOCK_RAW, socket.IPPROTO_UDP).sendto(datagram, ("127.0.0.1", 0))
END
}

# A server for 64 clients has 1,088 slots. CONNECTs that nobody confirms each take one, for seven and a half seconds, but none from port 0.
# One second after the last look that counted slots they are counted again. The answer to each goes again after half a second; it has no data,
# so that it isn't among the sends.
half_open() {
    local sent told before
    told=$(ask 'GET /metrics')
    before="$(sends "$told") $(resends "$told")"
    from_port_zero
    sent=$("$room/forge" "$port" 20 1)
    sent=${sent% sent}
    [ "${sent:-0}" -ge 10 ] || fail forge "only '$sent' went"
    slots_become half-open "$((1088 - sent)) 0 0 $sent 0 0" 6
    for _ in {1..25}; do
        told=$(sent_again)
        [ "$told" != "$sent" ] || break
        sleep 0.2
    done
    same half-open-sent-again "$told" "$sent"
    slots_become half-open-no-more '1088 0 0 0 0 0' 60
    same half-open-sent-again-no-more "$(sent_again)" 0
    told=$(ask 'GET /metrics')
    same half-open-sends "$(sends "$told") $(resends "$told")" "$before"
}

# Of clients that talk over a line that loses a fifth, both ways (clients/proxy.c), some commands are sent again; of clients that have gone none.
lossy() {
    local server=$port told=0 line talking before
    before=$(resends "$(ask 'GET /metrics')")
    free_port
    "$room/proxy" "$port" "$server" 7 loss 20 2> "$room/proxy.err" &
    line=$!
    "$room/steady" "$port" 8 6 100 > "$room/lossy.out" 2>&1 &
    talking=$!
    port=$server
    while kill -0 "$talking" 2> "$room/gone"; do
        told=$(sent_again)
        [ "${told:-0}" -eq 0 ] || break
    done
    [ "${told:-0}" -gt 0 ] && passed=$((passed + 1)) || fail sent-again 'none was'
    wait "$talking" || fail lossy "$(<"$room/lossy.out")"
    kill "$line"
    slots_become lossy-no-more '1088 0 0 0 0 0' 120
    same sent-again-no-more "$(sent_again)" 0
    told=$(resends "$(ask 'GET /metrics')")
    [ "${told:-0}" -gt "${before:-0}" ] && passed=$((passed + 1)) || fail resends "'$told' after '$before'"
}

# Two clients talk, and two others stop: what these are sent, 17 bytes each time, isn't acknowledged until they go on. It leaves the
# transit each time that it is due to be resent, and is in it again as soon as it goes, which is in the same turn while there is room.
in_transit() {
    local told stopped talking
    : > "$room/stopped.out"
    : > "$room/talking.out"
    "$room/tally" "$port" 2 600 > "$room/stopped.out" 2>&1 &
    stopped=$!
    "$room/tally" "$port" 2 600 > "$room/talking.out" 2>&1 &
    talking=$!
    slots_become connected '1084 0 0 0 4 0' 60
    talks stopped && talks talking
    kill -STOP "$stopped"
    sleep 1
    for _ in {1..15}; do
        sleep 0.1
        told=$(figure enet_in_transit_bytes "$(ask 'GET /metrics')")
        [ "${told:-0}" -lt 68 ] || [ $((told % 17)) -ne 0 ] || break
    done
    [ "${told:-0}" -ge 68 ] && [ $((told % 17)) -eq 0 ] && passed=$((passed + 1)) || fail in-transit "'$told' bytes"
    kill -CONT "$stopped"
    sleep 1
    kill "$talking" "$stopped"
    wait "$talking" || fail talking "$(<"$room/talking.out")"
    wait "$stopped" || fail stopped "$(<"$room/stopped.out")"
    slots_become gone '1088 0 0 0 0 0' 60
    same in-transit-no-more "$(figure enet_in_transit_bytes "$(ask 'GET /metrics')")" 0
}

# Waits until the clients of the output $1.out talk.
talks() {
    for _ in {1..600}; do
        ! grep -q talking "$room/$1.out" 2> "$room/gone" || return 0
        sleep 0.1
    done
    fail "$1" "$(<"$room/$1.out")"
}

# Figures while clients talk, for six seconds at least, and once they have gone.
figures() {
    local told logged unknown
    : > "$room/tally.out"
    "$room/tally" "$port" 32 600 > "$room/tally.out" 2>&1 &
    local tally=$!
    talks tally
    sleep 6
    for _ in {1..5}; do
        printf x > "/dev/udp/127.0.0.1/$port"
    done
    for _ in {1..3}; do
        printf '\0\62\1\377\0\1\0\1\0\0' > "/dev/udp/127.0.0.1/$port"
    done
    for _ in {1..300}; do
        told=$(ask 'GET /metrics')
        unknown=$(figure 'enet_datagrams_stopped_total{reason="S3"}' "$told")
        [ "$(figure enet_peers "$told") $unknown" != '32 3' ] || break
        sleep 0.2
    done
    same status "$(status "$told")" 200
    same peers "$(figure enet_peers "$told")" 32
    same slots "$(figure enet_slots "$told")" 1088
    same unknown "$unknown" 3
    slots_become slots-by-state '1056 0 0 0 32 0' 60
    kill "$tally"
    wait "$tally" || fail tally "$(<"$room/tally.out")"
    slots_become slots-afterwards '1088 0 0 0 0 0' 60
    sleep 1
    local sent bytes_sent came bytes_came taken
    read -r sent bytes_sent came bytes_came taken < <(tail -n 1 "$room/tally.out")
    told=$(ask 'GET /metrics')
    same peers-afterwards "$(figure enet_peers "$told")" 0
    same datagrams-in "$(figure 'enet_datagrams_total{way="in"}' "$told")" $((sent + 8))
    same bytes-in "$(figure 'enet_bytes_total{way="in"}' "$told")" $((bytes_sent + 5 + 30))
    same datagrams-out "$(figure 'enet_datagrams_total{way="out"}' "$told")" "$came"
    same bytes-out "$(figure 'enet_bytes_total{way="out"}' "$told")" "$bytes_came"
    same lost "$(figure enet_datagrams_lost_total "$told")" 0
    # What the relay sends on channel 0 is reliable, and nothing else is.
    same sends "$(($(sends "$told") - $(resends "$told")))" "$taken"
    same passed-over "$(figure enet_connects_passed_over_total "$told")" 0
    same dropped "$(figure enet_packets_dropped_total "$told")" 0
    same in-transit "$(figure enet_in_transit_bytes "$told")" 0
    same refused "$(figure 'enet_orders_refused_total{reason="E4"}' "$told")" 20
    logged=$(awk '/^orders refused [0-9]+, the last to .*: E4 NoSuchChannel$/ { lines++; refused += $3 } /^connect / { came++ } /^disconnect / { went++ }
        END { print came, went, refused, (lines < 10 ? "few" : lines) }' "$room/err")
    same logged "$logged" '32 32 20 few'
    same short "$(figure 'enet_datagrams_stopped_total{reason="S1"}' "$told")" 5
    # Each client's last word comes to nobody's slot if it is sent again.
    unknown=$(figure 'enet_datagrams_stopped_total{reason="S3"}' "$told")
    [ "${unknown:-0}" -ge 3 ] && passed=$((passed + 1)) || fail unknown-afterwards "'$unknown', fewer than 3"
    same waiting "$(figure 'enet_waiting{what="orders"}' "$told") $(figure 'enet_waiting{what="events"}' "$told")" '0 0'
    round_trips "$told"
}

# The dashboard asks for what is told, and for all of it.
dashboard() {
    local said
    ask 'GET /metrics' > "$room/page"
    said=$(python3 scripts/lib/dashboard.py "$room/page") && passed=$((passed + 1)) || fail dashboard "$said"
}

# Buckets grow, the last has all, and in six seconds each of 32 was taken at least three times.
round_trips() {
    local count
    count=$(figure enet_round_trip_seconds_count "$1")
    same buckets "$(awk '/^enet_round_trip_seconds_bucket/ { if ($2 < last) bad = 1; last = $2; n++ } END { print n, last, bad + 0 }' <<< "$1")" "13 $count 0"
    [ "${count:-0}" -ge 96 ] && passed=$((passed + 1)) || fail round-trips "only $count"
}

# What other requests are answered.
requests() {
    same no-page "$(status "$(ask 'GET /')")" 404
    same another-method "$(status "$(ask 'POST /metrics')")" 405
    same no-request "$(status "$(ask $'\1\2\3')")" 400
    same long-request "$(status "$(ask "GET /$(head -c 4000 /dev/zero | tr '\0' x)")")" 400
    is_healthy health
}

# Eighty ask nothing; each other one gets its answer.
silent() {
    local i begun
    : > "$room/silent"
    python3 - "$port" > "$room/silent" << 'END' &
import socket, sys, time
silent = [socket.create_connection(("127.0.0.1", int(sys.argv[1]))) for _ in range(80)]
print("silent", flush=True)
time.sleep(6)
END
    await_line silent "$room/silent"
    begun=$SECONDS
    for i in {1..5}; do
        same beside-silent "$(status "$(ask 'GET /metrics')")" 200
    done
    [ $((SECONDS - begun)) -le 4 ] || fail beside-silent "it took $((SECONDS - begun)) seconds"
    wait $!
    is_healthy after-silent
    for _ in {1..300}; do
        [ "$(sockets)" != 2 ] || break
        sleep 0.2
    done
    same descriptors "$(sockets)" 2
}

# How many sockets the server has.
sockets() {
    find "/proc/$relay/fd" -lname 'socket:*' 2> "$room/gone" | wc -l
}

# Waits until the file $2 has the line $1.
await_line() {
    for _ in {1..600}; do
        ! grep -qx "$1" "$2" 2> "$room/gone" || return 0
        sleep 0.1
    done
    fail "$1" "$(head -c 300 "$2")"
}

# Somebody at another address opens up to a thousand connections a second, five hundred at least. On each second one he asks for figures, and
# reads none; on the others he asks nothing. Each time that somebody else asks for /healthz, 0.3 seconds after his connection, he is told: mostly
# 200, and 503 where the machine stood still.
crowded() {
    local i crowd told
    : > "$room/crowded"
    : > "$room/crowd"
    python3 - "$port" "$room/crowded" << 'END' > "$room/crowd" 2>&1 &
import os, socket, sys, time
kept, came, end = [], 0, time.monotonic() + 120
while os.path.exists(sys.argv[2]) or came < 500 and time.monotonic() < end:
    kept.append(socket.socket())
    kept[-1].setsockopt(socket.SOL_SOCKET, socket.SO_LINGER, bytes([1, 0, 0, 0, 0, 0, 0, 0]))
    kept[-1].bind(("127.0.0.2", 0))
    kept[-1].settimeout(0.2)
    try:
        kept[-1].connect(("127.0.0.1", int(sys.argv[1])))
        came += 1
        if came == 100:
            print("crowded", flush=True)
        if came % 2 == 0:
            kept[-1].send(b"GET /metrics HTTP/1.1\r\n\r\n")
    except OSError:
        pass
    if len(kept) > 200:
        kept.pop(0).close()
    time.sleep(0.001)
print(came)
END
    crowd=$!
    await_line crowded "$room/crowd"
    for i in {1..10}; do
        told=$(status "$(ask 'GET /healthz' 0.3)")
        [ "$told" != 503 ] || told='200 soon'
        same beside-crowd "${told% soon}" 200
    done
    is_healthy beside-crowd-healthy
    rm "$room/crowded"
    wait "$crowd"
    [ "$(tail -n 1 "$room/crowd")" -ge 500 ] 2> "$room/gone" && passed=$((passed + 1)) || fail crowd "only $(head -c 300 "$room/crowd") came"
}

# /healthz answers 200, if not at once since the machine stood still; the case is $1.
is_healthy() {
    local told
    for _ in {1..300}; do
        told=$(status "$(ask 'GET /healthz')")
        [ "$told" != 200 ] || break
        sleep 0.2
    done
    same "$1" "$told" 200
}

# What /healthz answers, once it is another status than $1, or after twelve times half a second.
health_but() {
    local told
    for _ in {1..12}; do
        told=$(status "$(ask 'GET /healthz')")
        [ "$told" = "$1" ] || break
        sleep 0.5
    done
    echo "$told"
}

# While one thread is stopped /healthz answers 503 where that is the thread of the service, and nothing else once its last look is a second old;
# afterwards 200. Of the threads just one is it. On a machine that stands still /healthz may answer 503 at times, whatever thread is stopped.
hung() {
    local thread holder hung=0
    for thread in "/proc/$relay/task"/*; do
        "$room/hold" "${thread##*/}" 60 2> "$room/hold.err" &
        holder=$!
        sleep 2
        [ "$(health_but 503)" != 503 ] || hung=$((hung + 1))
        kill "$holder"
        wait "$holder" 2> "$room/gone"
        is_healthy health-again
    done
    same hung "$hung" 1
}

# Goes through the function $1, and again, six times at most, if something failed while the machine stood still for 300 ms or more: a guest
# that its host stops, or too much other work, looks like a thread that hangs. It stood still for as long as a sleep of 20 ms was late.
patiently() {
    local try before=$passed fell=$failed late watch
    for try in {1..6}; do
        passed=$before failed=$fell
        : > "$room/watched"
        python3 -c '
import os, sys, time
late, then = 0, time.monotonic()
while os.path.exists(sys.argv[1]):
    time.sleep(0.02)
    now = time.monotonic()
    late, then = max(late, now - then - 0.02), now
print(round(1000 * late))' "$room/watched" > "$room/late" &
        watch=$!
        "$1" > "$room/said"
        rm "$room/watched"
        wait "$watch"
        late=$(<"$room/late")
        [ "$failed" -gt "$fell" ] && [ "${late:-0}" -ge 300 ] && [ "$try" -lt 6 ] || break
        echo "again: $1 in $threads threads, since the machine stood still for $late ms"
    done
    cat "$room/said"
}

# `stop` ends all.
stops() {
    free_port
    { sleep 1; echo stop; sleep 5; } | timeout 120 "$program" serve --port "$port" --forever --control --metrics "127.0.0.1:$port" --threads "$threads" > "$room/out" 2> "$room/err"
    same stop "${PIPESTATUS[1]} $(<"$room/out")" '0 stopping'
}

room=$(mktemp -d) || exit 1
relay=
threads=1
trap 'kill $relay $(jobs -p) 2> /dev/null; wait; rm -rf "$room"' EXIT
if [ ! -x "$program" ]; then
    fail "$program" "it isn't there: run 'rt ci', or 'rt run' in crates/enet_relay"
elif ! build_clients "$room"; then
    fail clients "the C programs can't be built"
else
    for threads in 1 2; do
        begin
        figures
        patiently half_open
        patiently in_transit
        patiently lossy
        dashboard
        requests
        patiently silent
        patiently crowded
        hung
        finish
        stops
    done
fi
echo "$passed passed, $failed failed"
[ "$failed" -eq 0 ]
