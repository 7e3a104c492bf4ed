#!/usr/bin/env bash
# Counts what calls of a host take, in the dearest form that is known of each kind of datagram that strangers, half-open, connected and
# ended peers can send, and what is kept of it: scripts/check/prices.py has the rows, bench/prices.txt the most that each may take. Valgrind
# counts, which is installed where it is missing (as root); the program is out/probe, which build-probe.sh makes of trials/probe, and which
# is built first where it isn't there. It takes a minute of a processor.
#     check-prices.sh            compares; with `-v` it shows each row
#     check-prices.sh --write    writes what it counted, rounded up to two figures, into bench/prices.txt, whose head says when it may
# Names of parts of scripts/check/prices.py behind that count these alone. The last line is 'N passed, M failed'; the status is 1 where one
# failed.
cd "$(dirname "$0")/../.." || exit 1
. scripts/lib/packages.sh
. scripts/lib/tally.sh
if ! [ -x out/probe ] && ! bash scripts/lib/build-probe.sh; then
    fail probe "it can't be built"
elif ! command -v valgrind > /dev/null && ! install_packages valgrind > /dev/null; then
    fail valgrind "it isn't there"
else
    exec python3 scripts/check/prices.py "$@"
fi
echo "$passed passed, $failed failed"
exit 1
