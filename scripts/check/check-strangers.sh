#!/usr/bin/env bash
# Has hosts with connected peers take in 20,670 fronts and 165,360 changes of one bit of 60 captured datagrams (trials/datagrams.txt), and a
# million drawn ones: no other peer may change, nothing may come of it, and the host's totals must be what came and went. Then a host of 4,095
# connected peers is called. Of a CONNECT that a host with a secret answered once, twice and three times all 65,536 sent times are tried, with
# the right number: one, two and three confirm it. Of all 65,536 numbers one does, with a right time. And of 40,000 clients that join over a bad line, on which 30 of 100 datagrams are lost each way and a round trip takes
# 600 ms, at least 94.0 of 100 are connected within 5 seconds, and at most 1.2 of 100 take themselves for connected and aren't. The program is
# out/probe, which build-probe.sh makes of trials/probe; where it isn't there, it is built first. Ends within a minute. The last line is
# 'N passed, M failed'; the status is 1 where one failed.
cd "$(dirname "$0")/../.." || exit 1
. scripts/lib/tally.sh

wanted='60 datagrams: 20670 fronts
60 datagrams: 165360 changes of one bit
1000000 drawn datagrams
4095 peers are connected
4095 peers are still connected'
confirming='answers 1: of 65536 sent times 1 confirm, of 65536 numbers 1
answers 2: of 65536 sent times 2 confirm, of 65536 numbers 1
answers 3: of 65536 sent times 3 confirm, of 65536 numbers 1'

guesses() {
    found=$(timeout 1800 out/probe guesses 3 2>&1)
    [ "$found" = "$confirming" ] && passed=$((passed + 1)) || fail guesses "$found"
}

joins() {
    local soon mistaken
    found=$(timeout 1800 out/probe joins 40000 2>&1)
    read -r _ _ soon _ _ _ _ _ _ mistaken _ <<< "$found"
    [ "${soon:-0}" -ge 37600 ] && [ "${mistaken:-40000}" -le 480 ] && passed=$((passed + 1)) || fail joins "$found"
    echo "$found"
}

if ! [ -x out/probe ] && ! bash scripts/lib/build-probe.sh; then
    fail probe "it can't be built"
else
    found=$(timeout 1800 out/probe foreign 1000000 < trials/datagrams.txt 2>&1)
    if [ "$found" = "$wanted" ]; then
        passed=5
    else
        fail strangers "$found"
    fi
    guesses
    joins
fi
echo "$passed passed, $failed failed"
[ "$failed" -eq 0 ]
