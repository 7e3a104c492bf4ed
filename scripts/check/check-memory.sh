#!/usr/bin/env bash
# Refuses each growth of memory in turn while worked rows run: of hosts (trials/hosts), of two hosts with a network between them, of a fleet,
# and of the making of both queues. The fleet's row is run with calls behind it, too, that take no memory: it may have no more growths then.
# Before that each row runs with ample memory, where no call may be refused.
# Then hosts are filled with each kind of thing as far as it goes (scripts/lib/filled.awk), over an allocator that counts
# (measure/counted.c): what it gave may be no more than the definitions say (specs/Memory of enet_host), and for a packet whose pieces are
# coming no more than what came of it allows.
# The program is out/probe, which build-probe.sh makes of trials/probe; where it isn't there, it is built first. clients/faults.c, loaded
# into it, refuses growth k of run k, until the one that is refused stands behind the row: that run ends with status 4. A refused call has to be
# answered by a refusal and to change nothing that reading calls tell, and the row goes on by repeating it once (the program compares).
# Prints for each row how many growths were refused; the last line is 'N passed, M failed', in rows, and the status 1 where one failed.
# It ends within a minute. A row has at most so many growths as the argument says, 1,000 where none is given.
cd "$(dirname "$0")/../.." || exit 1
. scripts/lib/clients.sh
. scripts/lib/tally.sh
most=${1:-1000}

# Runs the program with growth $1 refused (none where that is 0), and the standard input $room/input.
run_with() {
    FAULTS_AT=$1 LD_PRELOAD=$room/faults.so timeout 600 out/probe < "$room/input" > "$room/out" 2>&1
}

# Whether the program said that all went as expected.
is_as_expected() {
    [[ $(<"$room/out") =~ ^as\ expected,\ [0-9]+\ growths\ refused$ ]]
}

# Runs the program with each of its growths refused in turn. The row is told as $1.
row() {
    local k status answered=0 own=0 silent=0
    run_with 0
    status=$?
    if [ "$status" -ne 0 ] || [ "$(<"$room/out")" != 'as expected, 0 growths refused' ]; then
        fail "$1" "with ample memory it ends with status $status: $(head -c 400 "$room/out")"
        return
    fi
    for ((k = 1; k <= most; k++)); do
        run_with "$k"
        status=$?
        [ "$status" -ne 4 ] || break
        if [ "$status" -eq 2 ]; then
            own=$((own + 1))
        elif [ "$status" -ne 0 ] || ! is_as_expected; then
            fail "$1" "growth $k refused: status $status: $(head -c 400 "$room/out")"
            return
        elif grep -q '[1-9][0-9]* growths refused$' "$room/out"; then
            answered=$((answered + 1))
        else
            silent=$((silent + 1))
        fi
    done
    growths[$1]=$((k - 1))
    if [ "$k" -gt "$most" ] || [ "$answered" -eq 0 ]; then
        fail "$1" "of $((k - 1)) growths $answered were answered by a refusal"
        return
    fi
    echo "$1: $answered growths answered by a refusal and the call repeated, $silent that no answer needs, $own of the program itself"
    passed=$((passed + 1))
}

# The same of a script of the lab.
lab_row() {
    { echo 0; grep -v "^#" "scripts/rows/$1.lab"; echo =; cat "scripts/rows/$1.out"; } > "$room/input"
    row "$1"
}

# A host that is filled with the kind $1, as scripts/lib/filled.awk says, with $2 channels, of whose packets $3 bytes may wait, and in $4
# pieces where they come in pieces. It prints what it holds, how many bytes that takes by definition, and how many the allocator gave. The
# definition has two bytes for each of a packet whose pieces are coming. It may take nothing for those that didn't come: only two for each
# that came, and 64 for each piece.
fill() {
    local name="$1${4:+ of $4} on $2 channels, where $3 bytes may wait" commands bytes packets total came arrived most
    awk -v kind="$1" -v channels="$2" -v waiting="$3" -v pieces="${4:-0}" -f scripts/lib/filled.awk > "$room/filled.hosts"
    read -r _ _ commands bytes packets total came arrived < "$room/filled.hosts"
    if ! (cd "$room" && COUNTED=held LD_PRELOAD=$room/counted.so timeout 600 "$OLDPWD/out/probe" filled \
        "$((commands * command + bytes))" < /dev/null > "$room/out" 2>&1); then
        fail "$name" "$(tail -c 400 "$room/out")"
        return
    fi
    most=$(($(sed -nE 's/.*: ([0-9]+) bytes by definition.*/\1/p' "$room/out") - packets * 2 * total + packets * (2 * arrived + 64 * came)))
    if [ "$(sed -nE 's/.* ([0-9]+) counted$/\1/p' "$room/out")" -gt "$most" ]; then
        fail "$name" "$(cat "$room/out"), for what came $most"
        return
    fi
    echo "$name: $(cat "$room/out")"
    passed=$((passed + 1))
}

# Hosts that are filled with each kind of thing, and what a command of a host's own user takes.
filled() {
    local kind command
    if ! cc -O2 -fno-builtin -shared -fPIC -o "$room/counted.so" measure/counted.c 2> "$room/out"; then
        fail filled "measure/counted.c can't be built: $(head -c 400 "$room/out")"
        return
    fi
    command=$(sed -n 's/^command_takes = //p' crates/enet_host/specs/Memory.antt)
    for kind in untaken held released waiting lines spread given-up pings; do
        fill "$kind" 2 133120
        fill "$kind" 255 532480
        fill "$kind" 12 4198400
    done
    for kind in pieces pieces-in-lines early half-early; do
        fill "$kind" 2 133120 4
        fill "$kind" 255 532480 4
        fill "$kind" 12 4198400 4
        fill "$kind" 2 8388609 16384
    done
    fill pieces 255 33554432 16384
    fill pieces-in-lines 255 33554432 16384
    for kind in reliable unreliable unsequenced many-pieces body burst kept front gone gone-unsequenced; do
        fill "$kind" 2 33554432
    done
    fill granted 255 33554432
    fill open 1 33554432
    fill open 4095 33554432
}

room=$(mktemp -d) || exit 1
trap 'rm -rf "$room"' EXIT
declare -A growths
if ! [ -x out/probe ] && ! bash scripts/lib/build-probe.sh; then
    fail probe "it can't be built"
elif ! build_clients "$room"; then
    fail clients "the C programs can't be built"
else
    for name in one-reliable-packet reliable-out-of-order unreliable-waits-for-reliable unreliable-keeps-its-place-between \
        long-reliable-packet-goes-as-reliable-fragments ask-to-disconnect-with-packets-untaken connect-handshake; do
        lab_row "$name"
    done
    for name in fleet 'fleet and on' queues; do
        printf '0\n%s' "$name" > "$room/input"
        row "$name"
    done
    [ "${growths[fleet]}" = "${growths['fleet and on']}" ] || fail fleet 'calls of it that take no memory have growths'
    for name in connect-offer connect-handshake connect-refusals disconnect-now-and-connect-again bandwidth-and-throttle-commands; do
        { echo 0; echo hosts; cat "trials/hosts/$name.hosts"; } > "$room/input"
        row "$name of hosts"
    done
    filled
fi
echo "$passed passed, $failed failed"
[ "$failed" -eq 0 ]
