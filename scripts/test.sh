#!/usr/bin/env bash
# All tests: the gate (every proof from nothing, the must-fail edits, the programs), whether the edits that the gate leaves alone still fit
# the text, the definitions that documents quote, the names, files and commits that they cite, the trials of the crates, the worked scripts
# and captured datagrams through the built program, each growth of memory of worked rows refused in turn, the instructions of the
# benchmark's jobs, clients of the reference library that talk through the program, what its operator's lines do, whom it lets in, what
# strangers may make it do and what that costs, what it tells of itself, what deploy/ has, the dissector for Wireshark, the library for C, and its bindings. Each test but the
# gate ends with a line 'N passed, M failed'; the status is other than 0 where anything failed.
# They run side by side, in rows, so that two processors have something to do to the end: what needs no program runs beside the gate; once
# that passed, what counts runs beside what talks through sockets. A row's output is shown once all of it ended. At the end out/tests.txt has the
# commit, the kit and what each test counted, and out/tested the sums of program and library and what the prover said of them, for release.sh.
set -u
cd "$(dirname "$0")/.." || exit 1
begun=$SECONDS
room=$(mktemp -d) || exit 1
trap 'kill $(jobs -p) 2> /dev/null; wait; rm -rf "$room"' EXIT

# Runs the commands of the standard input, a line each, one after another in the background (`<&0`: a job there reads nothing otherwise).
# `show` waits for them and shows what they said.
row() {
    local command
    while IFS= read -r command; do
        echo "== $command"
        $command < /dev/null || echo "$command" >> "$room/failed"
        echo "   after $((SECONDS - begun)) seconds"
    done <&0 > "$room/$1" 2>&1 &
    eval "$1=$!"
}
show() {
    wait "${!1}"
    cat "$room/$1"
}

library() {
    if bash scripts/lib/archive-c.sh > out/tested/archive.txt; then bash scripts/check/check-c.sh; else echo '0 passed, 1 failed'; false; fi
}

# What the crates' folders have of built libraries goes first, so that those that stand there afterwards are the gate's; out/probe, too.
rm -rf crates/*/out/rlib crates/enet_c/out/libenet_c.a out/probe out/tests.txt out/tested
mkdir -p out/tested
row texts << 'END'
bash scripts/lib/build-probe.sh
bash scripts/check/check-edits.sh --read
python3 scripts/check/quotes.py
python3 scripts/check/check-documents.py
bash scripts/check/check-trials.sh
END
# The gate, with one check a processor: several processors on one check take twice the processor time for the same proof. Sets `gate` to its status,
# and `was_full` to 1 where it says that the disk was full.
prove() {
    local statuses
    RT_JOBS=${RT_JOBS:-$(nproc)} rt ci 2>&1 | tee out/tested/gate.txt | awk -v last="$room/gate" '
        { print; fflush(); line = $0 }
        /could not write its statements|the disk is full|No space left on device/ { full = 1 }
        END { print line > last; exit full }'
    statuses=("${PIPESTATUS[@]}")
    gate=${statuses[0]}
    was_full=${statuses[2]}
}
# The free room in megabytes, here or for temporary files, whichever is less.
free_room() {
    df -m --output=avail . "${TMPDIR:-/tmp}" | tail -n 2 | sort -n | head -n 1
}
prove
# Where the disk is full for a while, crates that are proved just then aren't built. Once there are 5 GB, below which the gate keeps nothing, or
# after ten minutes, it runs once more: over what it kept, or from nothing.
if [ "$gate" != 0 ] && [ "$was_full" = 1 ]; then
    for _ in {1..20}; do
        [ "$(free_room)" -lt 5000 ] || break
        sleep 30
    done
    prove
fi
echo "rt ci ended with status $gate after $((SECONDS - begun)) seconds"
if [ "$gate" != 0 ]; then
    show texts
    exit 1
fi
python3 scripts/lib/count-proved.py --note out/tested/gate.txt # for release.sh: a later gate that keeps these proofs doesn't count them
row counts << 'END'
bash scripts/check/check-rows.sh
bash scripts/check/check-inspect.sh
bash scripts/check/check-memory.sh
bash scripts/check/check-strangers.sh
bash scripts/check/check-prices.sh
bash scripts/check/check-speed.sh
library
bash scripts/check/check-bindings.sh
END
row talks << 'END'
bash scripts/check/check-clients.sh
bash scripts/check/check-operator.sh
bash scripts/check/check-admission.sh
python3 scripts/check/check-hostile-server.py
bash scripts/check/check-metrics.sh
bash scripts/check/check-deploy.sh
python3 scripts/check/check-dissector.py
END
# What out/tests.txt says: of a test that counts nothing whether it ended well.
tell_counts() {
    echo "commit $(git rev-parse HEAD)$([ -z "$(git status --porcelain)" ] || echo ', with changes that no commit has')"
    echo "kit $(rt version)"
    echo "rt ci: $(<"$room/gate")"
    awk 'FILENAME == failed { lost[$0] = 1; next }
        /^== / { test = substr($0, 4); counts = "" }
        /^[0-9]+ passed, [0-9]+ failed$/ { counts = $0 }
        /^   after [0-9]+ seconds$/ { print test ": " (test in lost ? "FAILED " : "") (counts == "" ? "ended" : counts) }' \
        failed="$room/failed" "$room/failed" "$room/texts" "$room/counts" "$room/talks"
}
show texts
show counts
show talks
touch "$room/failed"
sha256sum crates/enet_relay/out/enet_relay crates/enet_c/out/libenet_c.a | tee out/tested/sums.txt # told, to be compared with those of another machine or folder
tell_counts > out/tests.txt
echo "all tests ended after $((SECONDS - begun)) seconds"
[ ! -s "$room/failed" ] || { echo 'failed:' >&2; cat "$room/failed" >&2; exit 1; }
