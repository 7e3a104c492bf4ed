#!/bin/sh
# agones_run.sh PROGRAM WORDS..: runs `enet_relay serve` with --log, --control and --metrics ADDRESS:PORT as a game server of Agones. It speaks
# to the sidecar of Agones' SDK by HTTP, so that the program needs no word of it:
#   - /ready once the program says that it listens;
#   - /health each HEALTH_SECONDS (2), only while /healthz at the address of --metrics says so: not while the service hangs;
#   - /allocate with the first player, where ALLOCATE_SELF is 1 (a matchmaker that allocates does without);
#   - `stop` to the program, where SHUTDOWN_EMPTY is 1, once the game is over: it was allocated JOIN_SECONDS (60) ago or more, and for
#     EMPTY_SECONDS (10) nobody was there; at SIGTERM and SIGINT always;
#   - /shutdown whenever the program has ended.
# The sidecar's /gameserver says whether it's allocated, the figure enet_peers how many play; both are asked each HEALTH_SECONDS. Players before
# the allocation don't count, and while one of the two doesn't answer the game isn't over. So a stranger who connects can keep a server going while
# he stays, but end no game.
# It passes on what the program says on standard error. It needs curl and mkfifo. Without AGONES_SDK_HTTP_PORT it tells nobody, and asks nobody:
# then no game ends by itself. Without --metrics among the words SHUTDOWN_EMPTY and ALLOCATE_SELF are refused, with status 2.
sdk=${AGONES_SDK_HTTP_PORT:-}
every=${HEALTH_SECONDS:-2}

# Where it tells figures; empty where it doesn't.
figures=
word=
for next; do
    [ "$word" != --metrics ] || figures=$next
    word=$next
done
if [ -z "$figures" ] && [ "${SHUTDOWN_EMPTY:-0}${ALLOCATE_SELF:-0}" != 00 ]; then
    echo 'agones_run.sh: SHUTDOWN_EMPTY and ALLOCATE_SELF count players by --metrics, which is not there' >&2
    exit 2
fi

room=$(mktemp -d) || exit 1
mkfifo "$room/lines" "$room/control" || exit 1

# Tells the sidecar. It may start later than this: `insist` says a word again until it is heard, 60 times at most.
tell() {
    [ -z "$sdk" ] || curl -sf -o /dev/null -m 2 -X POST -H 'Content-Type: application/json' -d '{}' "http://127.0.0.1:$sdk/$1"
}
insist() {
    tries=0
    until tell "$1" || [ "$tries" -ge 60 ]; do
        tries=$((tries + 1))
        sleep 0.5
    done
}

# Whether the service goes on.
is_healthy() {
    [ -z "$figures" ] || curl -sf -o /dev/null -m 2 "http://$figures/healthz"
}

# How many players are there; nothing where that isn't known.
players() {
    [ -z "$figures" ] || curl -sf -m 2 "http://$figures/metrics" | sed -n 's/^enet_peers \([0-9][0-9]*\)$/\1/p'
}

# Whether the sidecar says that somebody plays here, or is about to.
is_allocated() {
    [ -n "$sdk" ] && curl -sf -m 2 "http://127.0.0.1:$sdk/gameserver" | grep -q '"state" *: *"Allocated"'
}

# Seconds of a clock that nobody sets.
now() {
    cut -d . -f 1 /proc/uptime
}

exec 4<> "$room/control"
"$@" < "$room/control" 2> "$room/lines" 4<&- &
program=$!

# Passes on what the program says, beside this shell: it ends with the program.
(
    while IFS= read -r line; do
        printf '%s\n' "$line" >&2
        case $line in
            'listening at '*) insist ready & ;;
        esac
    done < "$room/lines"
    wait
) 4<&- &
reader=$!

stop() {
    echo stop >&4
}
trap stop TERM INT

# `since` is when it was seen to be allocated, `last` when players may have been there last. With ALLOCATE_SELF the first one allocates.
since=
last=
look_for_players() {
    there=$(players)
    if [ -z "$since" ]; then
        [ "${ALLOCATE_SELF:-0}" != 1 ] || [ "${there:-0}" -eq 0 ] || tell allocate
        is_allocated || return
        since=$(now)
        last=$since
    fi
    [ "${there:-1}" -eq 0 ] || last=$(now)
}

is_over() {
    [ -n "$since" ] && [ $(($(now) - since)) -ge "${JOIN_SECONDS:-60}" ] && [ $(($(now) - last)) -ge "${EMPTY_SECONDS:-10}" ]
}

while kill -0 "$program" 2> /dev/null; do
    ! is_healthy || tell health
    if [ "${SHUTDOWN_EMPTY:-0}${ALLOCATE_SELF:-0}" != 00 ]; then
        look_for_players
        [ "${SHUTDOWN_EMPTY:-0}" != 1 ] || ! is_over || stop
    fi
    sleep "$every" &
    wait $!
done
wait "$program"
status=$?
wait "$reader"
tell shutdown
rm -rf "$room"
exit "$status"
