#!/usr/bin/env bash
# Runs the built program `enet_relay inspect`: on the datagrams of the files in trials/captured, of which it must tell what
# inspected.awk derives from the remarks that stand beside them; on lines that are cut short, compressed, unreadable or passed over; and on
# captures in pcap format that are made here, byte by byte. With `--timeline` it must tell and draw of captures what timeline.py finds in
# them, and mark what stands in the rows of marks.rows; so it must of each script of scripts/rows and docs/lessons with `lab --timeline`, and say of
# which datagrams it is known that they were never delivered. Of captures in pcapng that pcapng.py makes it must tell and draw what it does of
# classic ones with their packets. The last line is 'N passed, M failed'; the status is 1 where one fails. The
# program is the one that `rt ci`, or `rt run` in crates/enet_relay, leaves; another can be named as argument.
cd "$(dirname "$0")/../.." || exit 1
. scripts/lib/tally.sh
program=$(realpath -m "${1:-crates/enet_relay/out/enet_relay}")
captures=trials/captured
body_options=

# An input: its name here, the file that has it, the files of the wanted output and standard error, and the wanted status. It is read from
# standard input, and by its name.
input() {
    local name=$1 file=$2 out=$3 err=$4 wanted=$5 status way
    for way in stdin file; do
        if [ "$way" = stdin ]; then
            timeout 600 "$program" inspect $body_options < "$file" > "$room/out" 2> "$room/err"
        else
            timeout 600 "$program" inspect $body_options "$file" > "$room/out" 2> "$room/err" < /dev/null
        fi
        status=$?
        cmp -s "$out" "$room/out" || { differ "$name by $way" 'standard output' "$out" "$room/out"; return; }
        cmp -s "$err" "$room/err" || { differ "$name by $way" 'standard error' "$err" "$room/err"; return; }
        [ "$status" -eq "$wanted" ] || { fail "$name by $way" "status $status where $wanted is wanted"; return; }
    done
    passed=$((passed + 1))
}

captured_files() {
    local file name count=0
    for file in "$captures"/*.txt; do
        name=$(basename "$file" .txt)
        awk '!/^#/ { print $2 }' "$file" > "$room/hex"
        awk -f scripts/lib/inspected.awk "$file" > "$room/wanted" || { fail "$name" "$(tail -n 1 "$room/wanted")"; continue; }
        count=$((count + $(wc -l < "$room/hex")))
        input "captured: $name" "$room/hex" "$room/wanted" /dev/null 0
    done
    [ "$count" -eq 446 ] || fail captures "they have $count datagrams where 446 are wanted"
}

# Lines: their name here, what they are by printf, the wanted output and standard error by printf, and the status.
lines() {
    printf '%b' "$2" > "$room/lines"
    printf '%b' "$3" > "$room/wanted"
    printf '%b' "$4" > "$room/wanted.err"
    input "$1" "$room/lines" "$room/wanted" "$room/wanted.err" "$5"
}

# The bytes of a packet in hex, and how they are told.
body() {
    local len=$((${#2} / 2))
    lines "body: $1" "$(printf '0000860000040%03x' $len)$2\n" \
        "datagram 0 length $((8 + len))\n  peer 0 session 0\n  SEND_RELIABLE channel 0 number 4 acknowledge length $len payload $3\n" '' 0
}

# The same with --full.
full() {
    body_options=--full
    body "$1, full" "$2" "$3"
    body_options=
}

rows() {
    local ping='datagram 0 length 8\n  peer 1 session 2 sent 100\n  PING channel 255 number 3 acknowledge\n'
    lines nothing '' '' '' 0
    lines passed-over '# a remark\n\n   \n' '' '' 0
    lines either-case '  A001006485FF0003 \n' "$ping" '' 0
    lines no-line-feed 'a001006485ff0003' "$ping" '' 0
    lines no-bytes '-\n' 'datagram 0 length 0\n  S1 Short at byte 0: -\n' '' 0
    lines one-byte '80\n' 'datagram 0 length 1\n  S1 Short at byte 0: 80\n' '' 0
    lines no-sent-time '800001\n' 'datagram 0 length 3\n  S1 Short at byte 0: 800001\n' '' 0
    lines header-alone '0fff\n' 'datagram 0 length 2\n  peer none session 0\n' '' 0
    lines compressed '4000aabb\n' 'datagram 0 length 4\n  peer 0 session 0 compressed\n  S2 Compressed at byte 2: aabb\n' '' 0
    lines compressed-and-short 'c00001\n' 'datagram 0 length 3\n  S2 Compressed at byte 0: c00001\n' '' 0
    lines unknown-command '00000dff0001\n' 'datagram 0 length 6\n  peer 0 session 0\n  S6 BadCommand at byte 2: 0dff0001\n' '' 0
    lines short-command 'a001006485ff000386000004000568\n' \
        'datagram 0 length 15\n  peer 1 session 2 sent 100\n  PING channel 255 number 3 acknowledge\n  S6 BadCommand at byte 8: 86000004000568\n' '' 0
    lines empty-packet '0000860000040000\n' \
        'datagram 0 length 8\n  peer 0 session 0\n  SEND_RELIABLE channel 0 number 4 acknowledge length 0 payload -\n' '' 0
    # hello, with a zero behind it; a quote, a backslash, a tab, a line feed and a carriage return; a zero alone; two zeros behind a letter
    body text 68656c6c6f '"hello"'
    body text-of-c 68656c6c6f00 '"hello\\0"'
    body escapes 22 '"\\""'
    body more-escapes 5c090a0d '"\\\\\\t\\n\\r"'
    body zero 00 00
    body two-zeros 680000 680000
    body no-letter 6807 6807
    body no-ascii c3a4 c3a4
    body 32-letters "$(printf '61%.0s' {1..32})" "\"$(printf 'a%.0s' {1..32})\""
    body 33-letters "$(printf '61%.0s' {1..33})" "\"$(printf 'a%.0s' {1..32})\".."
    body 33-bytes "$(printf '80%.0s' {1..33})" "$(printf '80%.0s' {1..32}).."
    full 33-bytes "$(printf '80%.0s' {1..33})" "$(printf '80%.0s' {1..33})"
    full 33-letters "$(printf '61%.0s' {1..33})" "\"$(printf 'a%.0s' {1..33})\""
    lines bad-line '#\na001006485ff0003\na00\n' "$ping" 'E15 BadScript line 3\n' 2
    lines two-words 'a0 01\n' '' 'E15 BadScript line 1\n' 2
}

# The bytes of hex, which may have spaces between them.
bytes() {
    printf '%b' "$(tr -d ' \n' <<< "$1" | sed 's/../\\x&/g')"
}

# A number of four bytes in hex, in the order $1.
word() {
    local hex
    hex=$(printf '%08x' "$2")
    [ "$1" = big ] || hex=${hex:6:2}${hex:4:2}${hex:2:2}${hex:0:2}
    echo "$hex"
}

# The hex of a capture's beginning: the order, the magic number, and the link type. The version is 2.4 in either order.
beginning() {
    local version=00020004
    [ "$1" = big ] || version=02000400
    echo "$(word "$1" "$2")$version$(word "$1" 0)$(word "$1" 0)$(word "$1" 65535)$(word "$1" "$3")"
}

# The hex of a packet in a capture: the order, seconds, parts, and the packet's hex.
packet() {
    local len=$((${#4} / 2))
    echo "$(word "$1" "$2")$(word "$1" "$3")$(word "$1" "$len")$(word "$1" "$len")$4"
}

# A capture: its name here, its hex, and what is wanted.
capture() {
    bytes "$2" > "$room/capture"
    printf '%b' "$3" > "$room/wanted"
    printf '%b' "$4" > "$room/wanted.err"
    input "$1" "$room/capture" "$room/wanted" "$room/wanted.err" "$5"
}

# A PING in UDP over IPv4, from 10.0.0.1:4660 to 10.0.0.2:47001, and the frames of the links around it.
captures() {
    local udp=1234b79900100000a001006485ff0003
    local ip=4500002400010000401100000a0000010a000002$udp
    local tcp=4500002400010000400600000a0000010a000002$udp
    local piece=4500002400012000401100000a0000010a000002$udp
    local ethernet=0202020202020101010101010800
    local way='datagram %d length 8 from 10.0.0.1:4660 to 10.0.0.2:47001 at '
    local ping='\n  peer 1 session 2 sent 100\n  PING channel 255 number 3 acknowledge\n'
    local first second order
    first=$(printf "$way" 0)
    second=$(printf "$way" 1)
    for order in big little; do
        capture "ethernet $order" "$(beginning $order 0xa1b2c3d4 1)$(packet $order 7 8 "$ethernet$ip")" \
            "${first}0.000000$ping""0 other packets, begun at 7.000008\n" '' 0
        capture "nanoseconds $order" "$(beginning $order 0xa1b23c4d 101)$(packet $order 7 999999999 "$ip")$(packet $order 9 1 "$ip")" \
            "${first}0.000000000$ping${second}1.000000002$ping""0 other packets, begun at 7.999999999\n" '' 0
        capture "cut short $order" "$(beginning $order 0xa1b2c3d4 12)$(packet $order 7 8 "$ip")$(packet $order 7 9 "$ip" | head -c 60)" \
            "${first}0.000000$ping" 'capture cut short after 1 packets\n' 2
        capture "link type $order" "$(beginning $order 0xa1b2c3d4 105)" '' "link type 105 can't be read\n" 2
        capture "loopback $order" "$(beginning $order 0xa1b2c3d4 0)$(packet $order 7 8 "$(word $order 2)$ip")" \
            "${first}0.000000$ping""0 other packets, begun at 7.000008\n" '' 0
    done
    capture "cooked, padded, and others" \
        "$(beginning big 0xa1b2c3d4 113)$(packet big 7 8 "00000304000600000000000000000800${ip}0000")$(packet big 7 8 \
        "000003040006000000000000000086dd$ip")$(packet big 7 9 "00000304000600000000000000000800$ip")" \
        "${first}0.000000$ping${second}0.000001$ping""1 other packets, begun at 7.000008\n" '' 0
    capture "others alone" \
        "$(beginning little 0xa1b2c3d4 228)$(packet little 7 8 "$tcp")$(packet little 7 8 "$piece")$(packet little 7 8 "${ip:0:70}")$(packet \
        little 7 8 '')" '4 other packets, begun at 7.000008\n' '' 0
    capture "no packets" "$(beginning little 0xa1b2c3d4 1)" '0 other packets\n' '' 0
    capture "earlier than the first" "$(beginning big 0xa1b2c3d4 12)$(packet big 7 8 "$ip")$(packet big 6 9 "$ip")" \
        "${first}0.000000$ping${second}0.000000$ping""0 other packets, begun at 7.000008\n" '' 0
    capture "no beginning" a1b2c3d4 '' 'capture cut short after 0 packets\n' 2
}

# A capture that is drawn: its name here, its file, what is wanted on standard error, the status, and what is asked for of it.
timeline() {
    local name="timeline: $1 ${*:5}" status found
    rm -f "$room/picture"
    timeout 600 "$program" inspect "$2" --timeline "$room/picture" "${@:5}" > "$room/out" 2> "$room/err" < /dev/null
    status=$?
    [ "$status" -eq "$4" ] || { fail "$name" "status $status where $4 is wanted: $(head -c 200 "$room/err")"; return; }
    [ "$(<"$room/err")" = "$3" ] || { fail "$name" "standard error is: $(head -c 200 "$room/err")"; return; }
    found=$(python3 scripts/lib/timeline.py check "$2" "$room/out" "$room/picture" "${@:5}" 2>&1) || { fail "$name" "$found"; return; }
    passed=$((passed + 1))
}

# What filters ask for of a capture.
excerpts() {
    local asked
    for asked in '--connection 0' '--connection 1' '--connection 255' '--channel 0' '--channel 1' '--channel 255' '--from 0.5' '--to 1' \
        '--from 1 --to 1.5' '--from 0.3 --channel 0' '--from 2 --to 1' '--connection 0 --channel 0 --from 0.1 --to 2000000'; do
        # shellcheck disable=SC2086 # these are words
        timeline "$1" "$2" '' 0 $asked
    done
}

# The captured files as captures, many connections, random datagrams, and captures that are cut short anywhere.
timelines() {
    local file seed cut
    for file in "$captures"/*.txt; do
        python3 scripts/lib/timeline.py capture "$file" "$room/made"
        timeline "$(basename "$file" .txt)" "$room/made" '' 0
        excerpts "$(basename "$file" .txt)" "$room/made"
    done
    python3 scripts/lib/timeline.py crowd "$room/made"
    timeline crowd "$room/made" '' 0
    excerpts crowd "$room/made"
    timeline crowd "$room/made" '' 0 --connection 99 --from 0.099 --to 20
    timeline crowd "$room/made" '' 0 --connection 7 --from 1.9
    for seed in 1 2 3 4 5 6 7 8; do
        python3 scripts/lib/timeline.py random $seed "$room/made"
        timeline "random $seed" "$room/made" '' 0
        timeline "random $seed" "$room/made" '' 0 --channel 1 --from 1000000000
    done
    python3 scripts/lib/timeline.py capture "$captures/data.txt" "$room/made"
    for cut in 25 40 100 1000 9999; do
        head -c $cut "$room/made" > "$room/cut"
        timeline "cut at $cut" "$room/cut" "capture cut short after $(whole_packets "$room/cut") packets" 2
    done
    head -c 24 "$room/made" > "$room/cut"
    timeline "no packet" "$room/cut" '' 0
}

whole_packets() {
    python3 - "$1" << 'END'
import struct, sys
whole, at, count = open(sys.argv[1], 'rb').read(), 24, 0
while at + 16 <= len(whole) and at + 16 + struct.unpack_from('<I', whole, at + 8)[0] <= len(whole):
    at += 16 + struct.unpack_from('<I', whole, at + 8)[0]
    count += 1
print(count)
END
}

# The rows of what is marked.
marks() {
    local wrong
    wrong=$(python3 scripts/lib/timeline.py marks "$captures/marks.rows" "$program" "$room" 2>&1) && passed=$((passed + $(grep -c '^row ' "$captures/marks.rows"))) \
        || fail marks "$wrong"
}

# The picture of each lesson is drawn of the script beside it; a capture of what its hosts put out is drawn, too.
pictures_of_lessons() {
    local lab kept
    for lab in docs/lessons/*.lab; do
        kept=${lab%.lab}
        timeout 600 "$program" lab < "$lab" | python3 scripts/lib/timeline.py lab "$lab" "$room/made" || { fail "picture of $lab" "$lab"; continue; }
        timeline "$(basename "$kept")" "$room/made" '' 0
        drawn_script "$lab"
        cmp -s "$room/picture" "$kept.svg" && passed=$((passed + 1)) || differ "picture of $lab" 'what is drawn of it' "$kept.svg" "$room/picture"
    done
}

# A script that is drawn, also where each line is explained: what it writes and its status are those of the script, and the picture has what
# timeline.py finds in it.
drawn_script() {
    local explain status found
    for explain in '' --explain; do
        rm -f "$room/picture"
        # shellcheck disable=SC2086 # a word or none
        timeout 120 "$program" lab $explain < "$1" > "$room/out" 2> "$room/err"
        status=$?
        # shellcheck disable=SC2086
        timeout 120 "$program" lab $explain --timeline "$room/picture" < "$1" > "$room/drawn" 2> "$room/drawn.err"
        [ $? -eq "$status" ] && cmp -s "$room/out" "$room/drawn" && cmp -s "$room/err" "$room/drawn.err" && passed=$((passed + 1)) \
            || differ "$1 drawn $explain" 'what is written' "$room/out" "$room/drawn"
        [ -n "$explain" ] || cp "$room/out" "$room/answers"
        found=$(python3 scripts/lib/timeline.py drawn "$1" "$room/picture" < "$room/answers" 2>&1) && passed=$((passed + 1)) || fail "$1 drawn $explain" "$found"
    done
}

drawn_scripts() {
    local lab
    for lab in scripts/rows/*.lab; do
        drawn_script "$lab"
    done
    # In rounds without losses nothing is lost.
    printf 'pair 1\nsubmit A 0.0 0 1 "hello"\nturn A\ncalm 3 10\nsubmit B 0.0 0 1 "hi"\ncalm 30 20\n' > "$room/calm.lab"
    timeout 60 "$program" lab --timeline "$room/picture" < "$room/calm.lab" > "$room/out"
    timeout 60 "$program" lab < "$room/calm.lab" > "$room/answers"
    [ "$(grep -c '^<path class="lost"' "$room/picture")" -eq 2 ] && cmp -s "$room/out" "$room/answers" && passed=$((passed + 1)) \
        || fail 'calm rounds drawn' "$(head -c 200 "$room/out")"
    timeout 60 "$program" lab --timeline "$room/no-such-folder/picture" < scripts/rows/one-reliable-packet.lab > "$room/out" 2> "$room/err"
    [ $? -eq 1 ] && cmp -s "$room/out" scripts/rows/one-reliable-packet.out && [ "$(<"$room/err")" = 'No such file or directory (os error 2)' ] \
        && passed=$((passed + 1)) || fail 'no file for the picture' "$(<"$room/err")"
}

# What `inspect` writes of the file $1, to $2 and $2.err, with its status in the last line of that.
inspected() {
    timeout 600 "$program" inspect "$1" > "$2" 2> "$2.err" < /dev/null
    echo "status $?" >> "$2.err"
}

# A capture in pcapng is told and drawn as the classic one with its packets, with times to the billionth of a second; so is a damaged one.
pcapng() {
    local file seed
    for file in "$captures"/*.txt; do
        python3 scripts/lib/timeline.py capture "$file" "$room/made"
        python3 scripts/lib/pcapng.py same "$room/made" "$room/blocks"
        inspected "$room/made" "$room/of-made"
        inspected "$room/blocks" "$room/of-blocks"
        sed -i -E 's/^(datagram .* at [0-9]+\.[0-9]{6}|.* begun at [0-9]+\.[0-9]{6})$/\1000/' "$room/of-made"
        cmp -s "$room/of-made" "$room/of-blocks" && cmp -s "$room/of-made.err" "$room/of-blocks.err" && passed=$((passed + 1)) \
            || differ "pcapng: $file" 'what is told' "$room/of-made" "$room/of-blocks"
        timeout 600 "$program" inspect "$room/made" --timeline "$room/picture" > "$room/of-made"
        timeout 600 "$program" inspect - --timeline "$room/blocks.svg" < "$room/blocks" > "$room/of-blocks"
        cmp -s "$room/of-made" "$room/of-blocks" && cmp -s "$room/picture" "$room/blocks.svg" && passed=$((passed + 1)) \
            || differ "pcapng: timeline of $file" 'what is told' "$room/of-made" "$room/of-blocks"
    done
    for seed in {1..100}; do
        python3 scripts/lib/pcapng.py random "$seed" "$room/blocks" "$room/made"
        inspected "$room/made" "$room/of-made"
        inspected "$room/blocks" "$room/of-blocks"
        cmp -s "$room/of-made" "$room/of-blocks" && cmp -s "$room/of-made.err" "$room/of-blocks.err" && passed=$((passed + 1)) \
            || differ "pcapng: random $seed" 'what is told' "$room/of-made" "$room/of-blocks"
    done
    python3 scripts/lib/pcapng.py long 1000000 "$room/blocks"
    inspected "$room/blocks" "$room/of-blocks"
    [ "$(<"$room/of-blocks")$(<"$room/of-blocks.err")" = '1000000 other packets, begun at 0.000000000status 0' ] && passed=$((passed + 1)) \
        || fail 'pcapng: a million blocks' "$(head -c 200 "$room/of-blocks" "$room/of-blocks.err")"
}

# What has no timeline: its name here, its file, what is wanted on standard error, and the status.
no_timeline() {
    timeout 600 "$program" inspect "$2" --timeline "$room/none" > "$room/out" 2> "$room/err"
    [ $? -eq "$4" ] && [ ! -s "$room/out" ] && [ ! -e "$room/none" ] && [ "$(<"$room/err")" = "$3" ] && passed=$((passed + 1)) \
        || fail "no timeline: $1" "$(head -c 200 "$room/err")"
}

refused_timelines() {
    echo a001006485ff0003 > "$room/hex"
    no_timeline lines "$room/hex" 'a timeline is drawn of a capture in pcap or pcapng format alone; editcap -F pcap IN OUT makes one' 2
    bytes a1b2c3d4 > "$room/short"
    no_timeline "no beginning" "$room/short" 'capture cut short after 0 packets' 2
    bytes "$(beginning little 0xa1b2c3d4 105)" > "$room/short"
    no_timeline "link type" "$room/short" "link type 105 can't be read" 2
    no_timeline "no such file" "$room/no-such-file" 'No such file or directory (os error 2)' 1
}

files() {
    timeout 600 "$program" inspect "$room/no-such-file" > "$room/out" 2> "$room/err"
    [ $? -eq 1 ] && [ "$(<"$room/err")" = 'No such file or directory (os error 2)' ] && passed=$((passed + 1)) || fail no-such-file "$(<"$room/err")"
    timeout 600 "$program" inspect < / > "$room/out" 2> "$room/err"
    [ $? -eq 1 ] && [ "$(<"$room/err")" = 'input or output failed' ] && passed=$((passed + 1)) || fail unreadable "$(<"$room/err")"
    echo 0fff | timeout 600 "$program" inspect > /dev/full 2> "$room/err"
    [ $? -eq 1 ] && [ "$(<"$room/err")" = 'input or output failed' ] && passed=$((passed + 1)) || fail unwritable "$(<"$room/err")"
    timeout 600 "$program" inspect one two > "$room/out" 2> "$room/err"
    [ $? -eq 2 ] && [ "$(<"$room/err")" = 'bad command line' ] && passed=$((passed + 1)) || fail two-files "$(<"$room/err")"
    # shellcheck disable=SC2086 # these are words
    for words in '--at UP' '--at LEFT' '--connection 1' '--from 1' '--timeline x --connection 256' '--timeline x --channel 256' \
        '--timeline x --from 1.0000001' '--timeline x --from .' '--timeline x --to -1' '--timeline x --to 4294967296' '--timeline x --full'; do
        timeout 600 "$program" inspect one $words > "$room/out" 2> "$room/err"
        [ $? -eq 2 ] && [ "$(<"$room/err")" = 'bad command line' ] && passed=$((passed + 1)) || fail "bad words: $words" "$(<"$room/err")"
    done
}

room=$(mktemp -d) || exit 1
trap 'rm -rf "$room"' EXIT
if [ ! -x "$program" ]; then
    fail "$program" "it isn't there: run 'rt ci', or 'rt run' in crates/enet_relay"
else
    captured_files
    rows
    captures
    timelines
    marks
    pictures_of_lessons
    drawn_scripts
    pcapng
    refused_timelines
    files
fi
echo "$passed passed, $failed failed"
[ "$failed" -eq 0 ]
