#!/usr/bin/env bash
# Runs each script that scripts/rows/list.txt names through the built program `enet_relay lab`, and compares what it writes
# to standard output with NAME.out, to standard error with NAME.err (no such file: nothing) and its status with NAME.status
# (no such file: 0). A long script and its output are made by NAME.awk. A script that is listed and missing fails. Each line of
# unreadable-lines.txt and of unreadable-lines-of-a-fleet.txt, whose escapes are printf's, is the second of a script for a pair or a
# fleet, and the first that can't be read. Each short script that makes two hosts, without `calm`, and the first of a fleet, is also run by
# out/probe (build-probe.sh) as one list of events, in one call. The lines that docs/LAB.md shows are a script, too, with their answers, and so
# are the lessons of docs/lessons, of whose pages each shown line must stand there. With `--explain` explained.lab must be told as in
# explained.out, each listed script and lesson must have the same answers below its lines, and of each line of expected.txt that must be
# expected which stands behind it. Command lines are tried too; those of `demo` take port
# 47100, and wait where another socket has it. The last line is 'N passed, M failed'; the status is 1 where one fails. The program is the one that
# `rt ci`, or `rt run` in crates/enet_relay, leaves; another can be named as argument.
cd "$(dirname "$0")/../.." || exit 1
program=${1:-crates/enet_relay/out/enet_relay}
lists=out/probe
lab_options=
rows=scripts/rows
. scripts/lib/clients.sh
. scripts/lib/tally.sh

# A script: its name, its file, and the files of the wanted output, of the wanted standard error, and the wanted status.
script() {
    local name=$1 lab=$2 out=$3 err=$4 wanted=$5
    [ -r "$lab" ] && [ -r "$out" ] || { fail "$name" "$lab or $out is missing"; return; }
    timeout 600 "$program" lab $lab_options < "$lab" > "$room/out" 2> "$room/err"
    local status=$?
    cmp -s "$out" "$room/out" || { differ "$name" 'standard output' "$out" "$room/out"; return; }
    cmp -s "$err" "$room/err" || { differ "$name" 'standard error' "$err" "$room/err"; return; }
    [ "$status" -eq "$wanted" ] || { fail "$name" "status $status where $wanted is wanted"; return; }
    passed=$((passed + 1))
}

row() {
    local row=$rows/$1 wanted=0 err=/dev/null
    first_comment "$1"
    if [ -r "$row.awk" ]; then
        rm -f "$room/row.lab" "$room/row.out"
        awk -v lab="$room/row.lab" -v out="$room/row.out" -f "$rows/says.awk" -f "$row.awk"
        script "$1" "$room/row.lab" "$room/row.out" /dev/null 0
        return
    fi
    [ -r "$row.status" ] && wanted=$(<"$row.status")
    [ -r "$row.err" ] && err=$row.err
    script "$1" "$row.lab" "$row.out" "$err" "$wanted"
    answers_below "$1" "$row.lab" "$row.out"
}

# A script that isn't empty says in its first line what it shows.
first_comment() {
    local file=$rows/$1.lab
    [ -r "$file" ] || file=$rows/$1.awk
    [ ! -s "$file" ] || head -n 1 "$file" | grep -aq '^# ' && passed=$((passed + 1)) || fail "$1" 'its first line is no comment'
}

# The lines that docs/LAB.md shows, each with its answer and a remark.
shown_lines() {
    awk -F '  +' -v lab="$room/shown.lab" -v out="$room/shown.out" '/^    / && NF == 4 { print $2 > lab; print $3 > out }' docs/LAB.md
    script docs/LAB.md "$room/shown.lab" "$room/shown.out" /dev/null 0
}

# Each lesson's script with its answers. The lines that its page shows stand there in this order, each with its answer; `..` ends one that goes
# on.
lessons() {
    local lab wrong
    for lab in docs/lessons/*.lab; do
        script "$lab" "$lab" "${lab%.lab}.out" /dev/null 0
        answers_below "$lab" "$lab" "${lab%.lab}.out"
        grep -v '^#' "$lab" | grep . | paste - "${lab%.lab}.out" > "$room/lesson"
        wrong=$(awk -F '\t' -v shown="${lab%.lab}.md" -f "$rows/lesson.awk" "$room/lesson") && [ -z "$wrong" ] && passed=$((passed + 1)) \
            || fail "${lab%.lab}.md" "not in the script from there on: $wrong"
    done
}

# A script that is explained, as it is told; and the answers below the lines of another one, which are its answers.
explained() {
    lab_options=--explain
    script explained "$rows/explained.lab" "$rows/explained.out" "$rows/explained.err" 2
    lab_options=
}

answers_below() {
    timeout 600 "$program" lab --explain < "$2" 2> "$room/err" | grep -av '^> \|^  ' > "$room/out"
    cmp -s "$3" "$room/out" && passed=$((passed + 1)) || differ "$1 explained" 'what is answered' "$3" "$room/out"
}

# Lines that can't be read, and what was expected: the line before each, the line, whose escapes are printf's, and what was expected.
expectations() {
    local before line wanted
    while IFS=$'\t' read -r before line wanted; do
        printf "%s\n%b\n" "$before" "$line" > "$room/expected.lab"
        timeout 600 "$program" lab --explain < "$room/expected.lab" > "$room/out" 2> "$room/err"
        [ "$(<"$room/err")" = $'E15 BadScript line 2\n'"expected $wanted" ] && passed=$((passed + 1)) \
            || differ_text "expected of '$line'" 'standard error' $'E15 BadScript line 2\n'"expected $wanted" "$(<"$room/err")"
    done < "$rows/expected.txt"
}

# A script as one list of events, without its comments. The row of a fleet stands in the program itself.
at_once() {
    local row=$rows/$1
    if [ "$1" = fleet-and-strangers ]; then
        printf 'run\nfleet\n' > "$room/list"
    elif [ -r "$row.lab" ] && [ ! -e "$row.status" ] && grep -a -m 1 -v '^#' "$row.lab" | grep -Eq '^(pair|open) ' && ! grep -Eq '^(calm .*|deliver .* last.*)$' "$row.lab"; then
        { echo run; grep -v '^#' "$row.lab"; echo =; cat "$row.out"; } > "$room/list"
    else
        return
    fi
    timeout 600 "$lists" < "$room/list" > "$room/out" 2> "$room/err"
    [ "$(<"$room/out")" = 'as expected, 0 growths refused' ] || { fail "$1 at once" "$(head -c 200 "$room/out" "$room/err")"; return; }
    passed=$((passed + 1))
}

# Lines that can't be read: the line before each, the one behind it, and the file that has them.
unreadable_lines() {
    echo ok > "$room/unreadable.out"
    echo 'E15 BadScript line 2' > "$room/unreadable.err"
    while IFS= read -r line; do
        printf "$1\n%b\n$2\n" "$line" > "$room/unreadable.lab"
        script "unreadable line '$line' behind $1" "$room/unreadable.lab" "$room/unreadable.out" "$room/unreadable.err" 2
    done < "$rows/$3"
}

# A command line: its name here, the wanted status and standard error, the file that is its standard input, that of its
# standard output, and its words.
command_line() {
    local name=$1 wanted=$2 err=$3 input=$4 output=$5
    shift 5
    timeout 600 "$program" "$@" < "$input" > "$output" 2> "$room/err"
    local status=$?
    [ "$(<"$room/err")" = "$err" ] || { differ_text "$name" 'standard error' "$err" "$(<"$room/err")"; return; }
    [ "$status" -eq "$wanted" ] || { fail "$name" "status $status where $wanted is wanted"; return; }
    passed=$((passed + 1))
}

# The first line of `serve` on the port `port`, at 127.0.0.1 or $1. How large a receive buffer is hangs on the system, so N stands for it.
listening() {
    echo "listening at ${1:-127.0.0.1}:$port, 32 peers, 1056 slots, 2 channels, receive buffer N bytes"
}

# A file of standard error, with N for the size of the receive buffer.
sized() {
    sed -E '1s/receive buffer [1-9][0-9]* bytes$/receive buffer N bytes/' "$1"
}

# A command line of `serve` or `demo`: its name here, the wanted status, standard error and standard output, and its words.
service_line() {
    timeout 600 "$program" "${@:5}" > "$room/out" 2> "$room/err"
    service_told "$?" "${@:1:4}"
}

# The same of a `demo` that starts a server, at port 47100. Sockets that ask for no port may get that one: where one has it, it waits.
demo_line() {
    local status
    for _ in {1..60}; do
        timeout 600 "$program" "${@:5}" > "$room/out" 2> "$room/err"
        status=$?
        [ "$status" -eq 1 ] && [ "$(<"$room/err")" = 'E14 WireFault' ] || break
        echo "again: $1, since port 47100 was taken"
        sleep 1
    done
    service_told "$status" "${@:1:4}"
}

# Whether a service that ended with status $1 told what it should: its name here, the wanted status, standard error and standard output.
service_told() {
    local status=$1 name=$2 wanted=$3 err=$4 out=$5
    [ "$(sized "$room/err")" = "$err" ] || { differ_text "$name" 'standard error' "$err" "$(sized "$room/err")"; return; }
    [ "$(<"$room/out")" = "$out" ] || { differ_text "$name" 'standard output' "$out" "$(<"$room/out")"; return; }
    [ "$status" -eq "$wanted" ] || { fail "$name" "status $status where $wanted is wanted"; return; }
    passed=$((passed + 1))
}

# Starts `serve` with these words on the port `port`, its outputs as $room/first and $room/first.err, and waits until it listens. The status
# is 1 where it ended before.
start_service() {
    : > "$room/first.err" # what the last one said
    "$program" serve --port "$port" "$@" > "$room/first" 2> "$room/first.err" &
    first=$!
    until grep -q '^listening at' "$room/first.err"; do
        kill -0 "$first" 2> "$room/gone" || return 1
        sleep 0.1
    done
}

# Waits until the command $@ succeeds, for a minute at most.
await() {
    for _ in {1..600}; do
        "$@" && return
        sleep 0.1
    done
    return 1
}

# Ends it.
end_service() {
    kill "$first"
    wait "$first" 2> "$room/gone"
    first=
}

# Whether the program told its version and a kit, by $1: the version is that of the file VERSION, and the kit's logic the one of `rt version`,
# where `rt` is there. Kits with one logic prove the same, and may have other names.
tells_version() {
    local logic
    logic=$(rt version 2> /dev/null | sed 's/.* logic/logic/')
    [[ $1 == "enet_relay $(<VERSION) (rattle-kit-"*" "${logic:-logic *}")" ]]
}

refused_command_lines() {
    local words
    while IFS= read -r words; do
        # shellcheck disable=SC2086
        command_line "bad: $words" 2 'bad command line' /dev/null "$room/out" $words
    done << 'END'
serve
serve --port 0
serve --port 65536
serve --port 47001 --peers 0
serve --port 47001 --peers 4096
serve --port 47001 --channels 0
serve --port 47001 --channels 256
serve --port 47001 --turns 1000001
serve --port 47001 --queue-capacity 0
serve --port 47001 --queue-capacity 65537
serve --port 47001 --max-packet 0
serve --port 47001 --max-packet 33554433
serve --port 47001 --max-waiting 0
serve --port 47001 --max-waiting 33554433
serve --port 47001 --forever --max-unsent 1
serve --port 47001 --forever --max-unsent 1073741825
serve --port 47001 --max-unsent 1073741824
serve --port 47001 --turns 2 --max-unsent 1073741824
serve --port 47001 --room 0
serve --port 47001 --room 65537
serve --port 47001 --room 64 --queue-capacity 64
serve --port 47001 --turns -1
serve --port 47001 --threads 0
serve --port 47001 --threads 3
serve --port 47001 --turns 2 --forever
serve --port 47001 --control
serve --port 47001 --turns 2 --control
serve --port 47001 --mtu 575
serve --port 47001 --mtu 4097
serve --port 47001 --receive-buffer 2047
serve --port 47001 --receive-buffer 1073741825
serve --port 47001 --per-address 0
serve --port 47001 --per-address 4096
serve --port 47001 --connects-per-second 0
serve --port 47001 --connects-per-second 1000001
serve --port 47001 --connects-per-address 0
serve --port 47001 --connects-per-address 1000001
serve --port 47001 --packets-per-client 0
serve --port 47001 --packets-per-client 1000001
serve --port 47001 --bytes-per-client 0
serve --port 47001 --bytes-per-client 1073741825
serve --port 47001 --ban localhost
serve --port 47001 --ban 127.0.0.1 --ban 127.0.0
serve --port 47001 --metrics 127.0.0.1:9100
serve --port 47001 --forever --metrics 127.0.0.1
serve --port 47001 --forever --metrics 127.0.0.1:0
serve --port 47001 --forever --metrics localhost:9100
serve --port 47001 --address localhost
serve --port 47001 --address 127.0.0.1.1
demo --clients 0
demo --clients 9
demo --turns 1000001
demo --port 0
demo --timeline
lab --timeline
lab --timeline one --timeline two
END
}

# Makes a program of the built one under limits by which no thread's stack has room.
no_threads() {
    printf '%s\n' '#!/bin/bash' 'ulimit -s 4000000 -v 2000000 && exec "$PROGRAM" "$@"' > "$room/no-threads"
    chmod +x "$room/no-threads"
}

# Makes a program of the built one to which the system gives no random bytes.
no_entropy() {
    echo 'int getentropy(void *bytes, unsigned long count) { return bytes && count ? -1 : 0; }' |
        cc -std=gnu11 -shared -fPIC -fno-builtin -x c - -o "$room/no-entropy.so" || return 1
    printf '%s\n' '#!/bin/bash' "LD_PRELOAD=$room/no-entropy.so exec \"\$PROGRAM\" \"\$@\"" > "$room/no-entropy"
    chmod +x "$room/no-entropy"
}

services() {
    no_threads
    no_entropy || fail no-entropy "there is no library without random bytes"
    free_port
    service_line serve-two-turns 0 "$(listening)" 'served 2 received 0 sent 0' serve --port "$port" --turns 2
    service_line serve-no-turn 0 "$(listening)" 'served 0 received 0 sent 0' serve --port "$port" --turns 0 --address 127.0.0.1
    service_line serve-small-queues 0 "$(listening)" 'served 2 received 0 sent 0' serve --port "$port" --turns 2 --queue-capacity 1
    service_line serve-small-room 0 "$(listening)" 'served 2 received 0 sent 0' serve --port "$port" --turns 2 --room 1
    service_line serve-small-mtu 0 "$(listening)" 'served 2 received 0 sent 0' serve --port "$port" --turns 2 --mtu 576
    service_line serve-limited 0 "$(listening)" 'served 2 received 0 sent 0' serve --port "$port" --turns 2 --per-address 4095 \
        --connects-per-second 1 --connects-per-address 1 --packets-per-client 1 --bytes-per-client 1 --ban 127.0.0.1 --ban 127.0.0.2
    small_buffer serve-small-receive-buffer
    service_line serve-with-log 0 "$(listening)" 'served 2 received 0 sent 0' serve --port "$port" --turns 2 --log
    service_line serve-in-two-threads 0 "$(listening)" 'served 2 received 0 sent 0' serve --port "$port" --turns 2 --threads 2
    service_line serve-in-one-thread 0 "$(listening)" 'served 2 received 0 sent 0' serve --port "$port" --turns 2 --threads 1
    service_line serve-no-turn-in-one-thread 0 "$(listening)" 'served 0 received 0 sent 0' serve --port "$port" --turns 0 --threads 1
    PROGRAM=$program program=$room/no-threads service_line serve-without-threads 1 'no second thread can be made' '' \
        serve --port "$port" --turns 2
    PROGRAM=$program program=$room/no-threads service_line serve-in-the-only-thread 0 "$(listening)" 'served 2 received 0 sent 0' \
        serve --port "$port" --turns 2 --threads 1
    service_line serve-with-no-secret 0 "$(listening)" 'served 2 received 0 sent 0' serve --port "$port" --turns 2 --no-secret
    PROGRAM=$program program=$room/no-entropy service_line serve-where-there-is-no-secret 1 \
        'the system gives no secret (getentropy failed); --no-secret serves without one' '' serve --port "$port" --turns 2
    PROGRAM=$program program=$room/no-entropy service_line serve-with-no-secret-where-there-is-none 0 "$(listening)" \
        'served 2 received 0 sent 0' serve --port "$port" --turns 2 --no-secret
    start_service --turns 1000000
    service_line port-taken 1 'E14 WireFault: Address already in use (os error 98)' '' serve --port "$port" --turns 2
    service_line no-such-address 1 'E14 WireFault: Cannot assign requested address (os error 99)' '' \
        serve --port "$port" --turns 2 --address 192.0.2.1
    service_line another-address 0 "$(listening 127.0.0.2)" 'served 2 received 0 sent 0' serve --port "$port" --turns 2 --address 127.0.0.2
    end_service
    goes_on forever 1
    goes_on forever-in-one-thread 1 --threads 1
    goes_on forever-in-two-threads 2 --threads 2
    goes_on control-without-input 1 --control
    free_port
    goes_on metrics 2 --metrics "127.0.0.1:$port"
    obeys control
    obeys control-in-two-threads --threads 2
    goes_on_unread unread
    counts_unread unread-any-more
}

# The receive buffer is as small as it is asked for; Linux tells twice that.
small_buffer() {
    timeout 600 "$program" serve --port "$port" --turns 2 --receive-buffer 65536 > "$room/out" 2> "$room/err"
    [ "$(<"$room/err")" = "listening at 127.0.0.1:$port, 32 peers, 1056 slots, 2 channels, receive buffer 131072 bytes" ] || { fail "$1" "$(head -c 200 "$room/err")"; return; }
    passed=$((passed + 1))
}

# `serve --forever` with the words behind $2, $1 its name here, goes on in $2 threads and writes its first line alone.
goes_on() {
    local name=$1
    free_port
    start_service --forever "${@:3}"
    await has_threads "$2" || fail "$name" "it serves in $(threads) threads where $2 are wanted"
    sleep 2
    kill -0 "$first" 2> "$room/gone" && has_threads "$2" || fail "$name" 'it ended by itself'
    end_service
    [ ! -s "$room/first" ] && [ "$(sized "$room/first.err")" = "$(listening)" ] || fail "$name" "it wrote: $(head -c 200 "$room/first" "$room/first.err")"
}

# How many threads the service has, and whether these are $1.
threads() {
    find "/proc/$first/task" -mindepth 1 -maxdepth 1 2> "$room/gone" | wc -l
}
has_threads() {
    [ "$(threads)" -eq "$1" ]
}

# `serve --forever --control` with the words behind $1, its name here, answers each line, and ends with `stop` and with no other.
obeys() {
    local name=$1 status
    free_port
    {
        printf '%s\n' peers nonsense 'kick 0.0' 'kick x' 'ban 127.0.0.9' 'ban x' 'unban 127.0.0.9' 'unban' 'say hello' 'log on' 'log maybe' \
            'log off' ' stop' 'stop now'
        head -c 2000 /dev/zero | tr '\0' x
        printf '\nstop'
        sleep 1
        printf '\n'
    } | timeout 120 "$program" serve --port "$port" --forever --control "${@:2}" > "$room/out" 2> "$room/err"
    status=${PIPESTATUS[1]}
    printf '%s\n' 'peers 0' 'not understood' 'no peer 0.0' 'not understood' 'banned 127.0.0.9 kicked 0' 'not understood' \
        'unbanned 127.0.0.9' 'not understood' 'said to 0' 'log on' 'not understood' 'log off' \
        'not understood' 'not understood' 'not understood' 'stopping' > "$room/wanted"
    cmp -s "$room/wanted" "$room/out" || { differ "$name" 'what it answered' "$room/wanted" "$room/out"; return; }
    [ "$status" -eq 0 ] || { fail "$name" "status $status where 0 is wanted"; return; }
    [ "$(sized "$room/err")" = "$(listening)" ] || { differ_text "$name" 'standard error' "$(listening)" "$(sized "$room/err")"; return; }
    passed=$((passed + 1))
}

# It answers with a standard output that takes nothing: `stop` ends it.
goes_on_unread() {
    local name=$1
    free_port
    mkfifo "$room/unread"
    exec 7<> "$room/unread"
    head -c 65536 /dev/zero >&7
    { printf 'peers\nstop\n'; sleep 8; } | timeout 120 "$program" serve --port "$port" --forever --control >&7 2> "$room/err"
    [ "${PIPESTATUS[1]}" -eq 0 ] && passed=$((passed + 1)) || fail "$name" 'it was held up by its standard output'
    exec 7>&-
    rm "$room/unread"
}

# Whether the service has taken all lines of descriptor 8, and each of its threads sleeps.
is_idle() {
    ! read -r -t 0 <&8 && [ -z "$(sed 's/.*) //' "/proc/$first/task"/*/stat | grep -v '^S ')" ]
}

# Answers for which its standard output has no reader left are counted, and the next reader is told how many there were.
counts_unread() {
    local name=$1 status reader
    free_port
    mkfifo "$room/left" "$room/lines"
    exec 8<> "$room/lines"
    : > "$room/err"
    : < "$room/left" &
    reader=$!
    timeout 120 "$program" serve --port "$port" --forever --control <&8 > "$room/left" 2> "$room/err" &
    wait "$reader"
    await grep -q '^listening at' "$room/err"
    first=$(pgrep -P $!)
    printf 'peers\npeers\n' >&8
    for _ in 1 2 3; do
        await is_idle
        sleep 0.3
    done
    exec 7< "$room/left"
    echo stop >&8
    timeout 60 cat <&7 > "$room/out"
    wait $!
    status=$?
    first=
    exec 7<&- 8>&-
    rm "$room/left" "$room/lines"
    [ "$status" -eq 0 ] && [ "$(<"$room/out")" = $'2 more\nstopping' ] && passed=$((passed + 1)) || fail "$name" "status $status, it answered: $(head -c 200 "$room/out")"
}

# What `demo` prints with $1 clients of which each got $2 packets, and the last word $3, at the port $4 of $5.
demo_prints() {
    local client
    echo "$1 clients connect to 127.0.0.1:$4, $5"
    echo 'each sends 3 packets reliably on channel 0, which a chat relay passes on to the others'
    for ((client = 0; client < $1; client++)); do
        echo "client $client got $2 packets, the others sent $((3 * ($1 - 1)))"
    done
    echo "demo $3"
}

# With `--timeline` it prints the same, and draws the connection of each of $1 clients.
demo_drawn() {
    local found
    demo_line "demo-drawn-$1" 0 '' "$(demo_prints "$1" $((3 * ($1 - 1))) done 47100 'a server in this process')" \
        demo --clients "$1" --turns 1000 --timeline "$room/demo.svg"
    found=$(python3 scripts/lib/timeline.py demo "$room/demo.svg" "$1" 2>&1) && passed=$((passed + 1)) || fail "demo-drawn-$1" "$found"
}

# Each client chats once the server has all of them for peers, so each gets three packets of each other one, whichever came first.
demonstrations() {
    local clients own='a server in this process' there='a server that is there'
    for clients in 1 2 8; do
        demo_line "demo-$clients" 0 '' "$(demo_prints "$clients" $((3 * (clients - 1))) done 47100 "$own")" demo --clients "$clients" --turns 1000
    done
    demo_drawn 2
    demo_line demo-no-turn 3 '' "$(demo_prints 2 0 late 47100 "$own")" demo --turns 0
    port=47100
    await start_service --turns 1000000 || fail demo-server-port-taken "$(<"$room/first.err")"
    service_line demo-server-port-taken 1 'E14 WireFault' "$(demo_prints 2 0 '' 47100 "$own" | head -n 2)" demo
    end_service
    free_port
    start_service --turns 1000000
    demo_line demo-beside-a-server 0 '' "$(demo_prints 2 3 done 47100 "$own")" demo
    for clients in 1 2 8; do
        service_line "demo-$clients-at-a-server" 0 '' "$(demo_prints "$clients" $((3 * (clients - 1))) done "$port" "$there")" \
            demo --clients "$clients" --port "$port"
    done
    end_service
}

command_lines() {
    command_line no-subcommand 2 'bad command line' /dev/null "$room/out"
    command_line unknown-subcommand 2 'bad command line' /dev/null "$room/out" frob
    refused_command_lines
    command_line unsent-below-two-packets 2 'bad command line: --max-unsent is below twice --max-packet' /dev/null "$room/out" \
        serve --port 47001 --forever --max-unsent 524287
    command_line unsent-below-two-of-its-packets 2 'bad command line: --max-unsent is below twice --max-packet' /dev/null "$room/out" \
        serve --port 47001 --forever --max-packet 1000 --max-unsent 1999
    command_line a-word-too-many 2 'bad command line' /dev/null "$room/out" lab frob
    command_line help 0 '' /dev/null "$room/out" --help
    grep -q lab "$room/out" || fail help "it doesn't name the lab"
    grep -q -- '--version' "$room/out" || fail help "it doesn't name --version"
    command_line version 0 '' /dev/null "$room/out" --version
    tells_version "$(<"$room/out")" || fail version "it tells '$(<"$room/out")'"
    command_line version-of-a-command 2 'bad command line' /dev/null "$room/out" serve --version
    command_line help-of-serve 0 '' /dev/null "$room/out" serve --help
    grep -q -- '--queue-capacity' "$room/out" && grep -q -- '--threads' "$room/out" && grep -q -- '--no-secret' "$room/out" && grep -q -- '--control' "$room/out" && grep -q -- '--per-address' "$room/out" && grep -q -- '--max-packet' "$room/out" && grep -q -- '--max-waiting' "$room/out" && grep -q -- '--max-unsent' "$room/out" && grep -q -- '--metrics' "$room/out" || fail help-of-serve 'an option is missing'
    command_line help-of-lab 0 '' /dev/null "$room/out" lab --help
    grep -q -- '--explain' "$room/out" && grep -q -- '--timeline' "$room/out" || fail help-of-lab 'an option is missing'
    command_line help-of-demo 0 '' /dev/null "$room/out" demo --help
    grep -q -- '--timeline' "$room/out" || fail help-of-demo 'an option is missing'
    command_line input-that-cannot-be-read 1 'input or output failed' / "$room/out" lab
    command_line output-that-cannot-be-written 1 'input or output failed' "$rows/one-reliable-packet.lab" /dev/full lab
    command_line input-to-explain-that-cannot-be-read 1 'input or output failed' / "$room/out" lab --explain
    command_line explanation-that-cannot-be-written 1 'input or output failed' "$rows/one-reliable-packet.lab" /dev/full lab --explain
}

room=$(mktemp -d) || exit 1
first=
trap 'kill $first 2> /dev/null; rm -rf "$room"' EXIT
if [ ! -x "$program" ]; then
    fail "$program" "it isn't there: run 'rt ci', or 'rt run' in crates/enet_relay"
elif [ ! -x "$lists" ] && ! bash scripts/lib/build-probe.sh; then
    fail "$lists" "it can't be built"
elif [ ! -r "$rows/list.txt" ] || [ ! -r "$rows/unreadable-lines.txt" ] || [ ! -r "$rows/unreadable-lines-of-a-fleet.txt" ]; then
    fail "$rows" "list.txt, unreadable-lines.txt or unreadable-lines-of-a-fleet.txt is missing"
else
    while IFS= read -r name || [ -n "$name" ]; do
        case $name in '' | '#'*) ;; *) row "$name"; at_once "$name" ;; esac
    done < "$rows/list.txt"
    shown_lines
    lessons
    explained
    expectations
    unreadable_lines 'pair 1' 'turn A' unreadable-lines.txt
    unreadable_lines 'fleet 2 2 2' 'turn S' unreadable-lines-of-a-fleet.txt
    command_lines
    services
    demonstrations
fi
echo "$passed passed, $failed failed"
[ "$failed" -eq 0 ]
