#!/usr/bin/env bash
# What deploy/ has, tried: `check-deploy.sh [PROGRAM]`. systemd-analyze verifies the unit and finds it exposed by at most 1.2 of 10. What the
# unit starts runs as a user without rights: who isn't root can't write to its control FIFO, root says `peers` there and it answers, and where
# SIGTERM comes to its first process while four clients of the reference library talk (clients/guests.c), all are told, and it ends with status
# 0. The entrypoint of the container is process 1 of a namespace of its own, with the same end. The wrapper for Agones runs beside a stub of the
# SDK's sidecar: it is ready, healthy, allocated with the first client, and shut down, once by SIGTERM and once since the last client has left.
# It isn't called healthy while one of its threads is stopped (clients/hold.c), the service's or the one that answers. And 21 strangers who
# flood the log (clients/gossip.c) and leave end neither a server that nobody plays on yet nor a game. Bash is offered the options that each
# command's help tells, and no other. PROGRAM is the built `enet_relay`, by
# default the one that `rt ci`, or `rt run` in crates/enet_relay, leaves. It wants root, and installs what is missing. Prints what failed, and
# as last line 'N passed, M failed'; the status is 1 where one failed.
cd "$(dirname "$0")/../.." || exit 1
. scripts/lib/clients.sh
. scripts/lib/tally.sh
program=$(realpath "${1:-crates/enet_relay/out/enet_relay}")
room=$(mktemp -d) || exit 1
started=()
trap 'kill "${started[@]}" 2> "$room/gone"; rm -rf "$room"' EXIT

judge() {
    if [ "$2" = 0 ]; then
        passed=$((passed + 1))
    else
        echo "FAILED $1: $(head -c 600 "$room/why")"
        failed=$((failed + 1))
    fi
}

install_tools() {
    local missing=()
    command -v systemd-analyze > "$room/found" || missing+=(systemd)
    command -v unshare > "$room/found" || missing+=(util-linux)
    command -v curl > "$room/found" || missing+=(curl)
    command -v python3 > "$room/found" || missing+=(python3)
    [ ${#missing[@]} -eq 0 ] || install_packages "${missing[@]}" > "$room/install" 2>&1
}

# The unit, with what it starts at the places that it names.
unit() {
    local unit=$room/root/etc/systemd/system
    mkdir -p "$unit" "$room/root/usr/local/bin" "$room/root/usr/local/lib/enet-relay" "$room/root/bin"
    cp deploy/systemd/enet-relay.service "$unit"
    cp "$program" "$room/root/usr/local/bin/enet_relay"
    cp deploy/relay_run.sh "$room/root/usr/local/lib/enet-relay/"
    cp /bin/sh "$room/root/bin/sh"
    systemd-analyze --root="$room/root" --recursive-errors=no --man=no verify "$unit/enet-relay.service" > "$room/why" 2>&1 || return 1
    [ ! -s "$room/why" ] || return 1
    systemd-analyze --root="$room/root" --offline=true --threshold=12 security "$unit/enet-relay.service" > "$room/why" 2>&1
}

# Waits up to a minute until the file $1 has a line that begins with $2.
wait_for() {
    for _ in {1..600}; do
        grep -q "^$2" "$1" 2> "$room/gone" && return
        sleep 0.1
    done
    echo "no line '$2': $(head -c 400 "$1")" > "$room/why"
    return 1
}

# Starts two pairs of guests on the port $1, and waits until they talk.
receive_guests() {
    pairs=()
    local pair
    for pair in 1 2; do
        : > "$room/pair$pair" # what the last ones said
        timeout 660 "$room/guests" "$1" "${2:-told}" > "$room/pair$pair" 2> "$room/pair$pair.err" &
        pairs+=($!)
        started+=($!)
    done
    wait_for "$room/pair1" talking && wait_for "$room/pair2" talking
}

# Whether each pair of guests fared well.
guests_fared() {
    local pair
    for pair in "${pairs[@]}"; do
        wait "$pair" || { cat "$room/pair1.err" "$room/pair2.err" > "$room/why"; return 1; }
    done
}

# SIGTERM to the process $2 of what was started as $1, while guests talk: they are told, and it ends well, sooner than by the end of a
# connection whose peer is silent.
terminate() {
    local begun=$SECONDS
    kill -TERM "$2"
    guests_fared || return 1
    wait "$1" || { echo "status $?" > "$room/why"; return 1; }
    [ $((SECONDS - begun)) -le 20 ] || { echo "it took $((SECONDS - begun)) seconds" > "$room/why"; return 1; }
}

# What the unit starts, by its own words, with another port and other places.
service() {
    local text=deploy/systemd/enet-relay.service there=$room/root/usr/local control=$room/run/control options words outer
    free_port
    options=$(sed -n "s/^Environment=\"OPTIONS=\(.*\)\"\$/\1/p" "$text" | sed "s/47001/$port/")
    words=$(sed -n 's/^ExecStart=//p' "$text" | sed "s|/usr/local|$there|g; s|\$OPTIONS|$options|")
    install -d -o 65534 -g 65534 -m 700 "$room/run"
    # shellcheck disable=SC2086
    CONTROL=$control setpriv --reuid 65534 --regid 65534 --clear-groups $words > "$room/service.out" 2> "$room/service.err" &
    outer=$!
    started+=("$outer")
    wait_for "$room/service.err" 'listening at' && receive_guests "$port" || return 1
    echo peers > "$control"
    wait_for "$room/service.out" 'peers 4' || return 1
    [ "$(stat -c '%A %u' "$control")" = 'prw------- 65534' ] || { stat -c '%A %u' "$control" > "$room/why"; return 1; }
    terminate "$outer" "$outer" || return 1
    grep -q '^stopping$' "$room/service.out" || { cat "$room/service.out" > "$room/why"; return 1; }
}

container() {
    free_port
    unshare --pid --fork --kill-child -- sh deploy/relay_run.sh "$program" serve --port "$port" --forever --log \
        > "$room/container.out" 2> "$room/container.err" &
    local outer=$!
    started+=("$outer")
    wait_for "$room/container.err" 'listening at' && receive_guests "$port" || return 1
    terminate "$outer" "$(pgrep -P "$outer")"
}

# Starts the wrapper beside a sidecar at the port `sdk`, with the settings $@, and waits until it is ready and healthy.
begin_wrapper() {
    free_port
    sdk=$port
    rm -f "$room/sidecar"
    python3 deploy/agones/sidecar_stub.py "$sdk" > "$room/sidecar" 2> "$room/sidecar.err" &
    started+=($!)
    free_port
    env AGONES_SDK_HTTP_PORT="$sdk" HEALTH_SECONDS=1 "$@" sh deploy/agones/agones_run.sh "$program" serve --port "$port" --peers 64 \
        --forever --log --control --metrics "127.0.0.1:$port" > "$room/wrapper.out" 2> "$room/wrapper.err" &
    wrapper=$!
    started+=("$wrapper")
    wait_for "$room/sidecar" Ready && wait_for "$room/sidecar" health
}

# The wrapper, ended by SIGTERM where $1 is `term`, else once its clients have left.
agones() {
    local how=$1 sdk wrapper
    begin_wrapper ALLOCATE_SELF=1 SHUTDOWN_EMPTY=1 EMPTY_SECONDS=2 JOIN_SECONDS=3 || return 1
    if [ "$how" = term ]; then receive_guests "$port"; else receive_guests "$port" 600; fi || return 1
    wait_for "$room/sidecar" Allocated || return 1
    [ "$how" != term ] || kill -TERM "$wrapper"
    guests_fared && wait_for "$room/sidecar" Shutdown || return 1
    wait "$wrapper" || { echo "status $?" > "$room/why"; return 1; }
}

# Whether the server goes on $1 seconds later.
goes_on() {
    sleep "$1"
    ! grep -q '^Shutdown$' "$room/sidecar" || { echo "it was stopped: $(paste -sd ' ' "$room/sidecar")" > "$room/why"; return 1; }
}

# 21 strangers who have 20 orders refused for each packet of one of them, and leave after two seconds.
gossip() {
    : > "$room/gossip.out"
    timeout 200 "$room/gossip" "$port" 20 2 > "$room/gossip.out" 2> "$room/why" &
    started+=($!)
    wait_for "$room/gossip.out" talking
}

# Strangers come before the server is allocated, and again while five play: neither the server nor the game ends. Once the players have left,
# it does.
strangers() {
    local sdk wrapper visit players
    begin_wrapper SHUTDOWN_EMPTY=1 EMPTY_SECONDS=2 JOIN_SECONDS=2 || return 1
    gossip && wait $! && goes_on 4 || return 1
    ! grep -q Allocated "$room/sidecar" || { echo 'strangers had it allocated' > "$room/why"; return 1; }
    curl -sf -o /dev/null -m 60 -X POST -d '{}' "http://127.0.0.1:$sdk/allocate" && gossip || return 1
    visit=$!
    "$room/knock" "$port" 127.0.0.1 5 600 in > "$room/why" 2>&1 &
    players=$!
    started+=("$players")
    wait "$visit" && goes_on 4 && kill "$players" && wait "$players" && grep -q '^5 connected 0 ended$' "$room/why" || return 1
    wait_for "$room/sidecar" Shutdown && wait "$wrapper"
}

# How often the sidecar was told of health.
healthy() {
    grep -c '^health$' "$room/sidecar"
}

# The wrapper of a program that tells figures, each of whose threads is stopped: from the fifth second to the eighth nobody is told of
# health, and afterwards it is told again.
hung() {
    local sdk wrapper first thread before holder
    begin_wrapper || return 1
    first=$(pgrep -P "$wrapper" -x "$(basename "$program" | cut -c 1-15)")
    for thread in "/proc/$first/task"/*; do
        "$room/hold" "${thread##*/}" 60 2> "$room/why" &
        holder=$!
        sleep 4
        before=$(healthy)
        sleep 4
        [ "$(healthy)" -eq "$before" ] || { echo "it was called healthy while ${thread##*/} of $first hung" > "$room/why"; return 1; }
        kill "$holder"
        wait "$holder" 2> "$room/gone"
        for _ in {1..600}; do
            [ "$(healthy)" -le "$before" ] || break
            sleep 0.1
        done
        [ "$(healthy)" -gt "$before" ] || { echo 'it was never called healthy again' > "$room/why"; return 1; }
    done
    kill -TERM "$wrapper"
    wait_for "$room/sidecar" Shutdown && wait "$wrapper"
}

# What bash offers after each command, beside its help.
completion() {
    local command
    for command in serve demo inspect lab; do
        "$program" "$command" --help | grep -oE '^ +(-[a-z], )?--[a-z-]+' | grep -oE -- '--[a-z-]+' | sort > "$room/options"
        bash -c '. deploy/bash/enet_relay; COMP_WORDS=(enet_relay "$1" --) COMP_CWORD=2; _enet_relay; printf "%s\n" "${COMPREPLY[@]}"' completion \
            "$command" | sort > "$room/offered"
        [ -s "$room/options" ] && diff "$room/options" "$room/offered" > "$room/why" || return 1
    done
}

install_tools
if ! build_clients "$room"; then
    echo '0 passed, 1 failed'
    exit 1
fi
chmod 711 "$room"
unit
judge unit $?
service
judge service $?
container
judge container $?
agones term
judge agones-terminated $?
agones empty
judge agones-empty $?
hung
judge agones-hung $?
strangers
judge agones-strangers $?
completion
judge completion $?
echo "$passed passed, $failed failed"
[ "$failed" -eq 0 ]
