# What the scripts that run the programs of clients/ share; they source it at the top of the repository.
. scripts/lib/packages.sh

# Builds the programs into the directory $1, all or those that are named behind it, after installing a C compiler and the reference library where
# they are missing (as root, from Debian's packages). What went wrong is on standard error.
build_clients() {
    local missing=()
    [ -r /usr/include/enet/enet.h ] || missing+=(libenet-dev)
    command -v cc > /dev/null || missing+=(gcc libc6-dev)
    if [ ${#missing[@]} -gt 0 ]; then
        install_packages "${missing[@]}" > "$1/install" 2>&1 || { cat "$1/install" >&2; return 1; }
    fi
    local source sources=("${@:2}")
    [ ${#sources[@]} -gt 0 ] || sources=(client crowd echo guess guests server steady soak proxy load tell hostile hoard swarm flood knock forge
        tally hold told passers gossip join many fray loud)
    for source in "${sources[@]}"; do
        cc -std=gnu11 -O2 -Wall -Wextra -pthread -o "$1/$source" "clients/$source.c" -lenet || return 1
    done
    [ $# -eq 1 ] || return 0
    cc -std=gnu11 -O2 -Wall -Wextra -shared -fPIC -o "$1/faults.so" clients/faults.c || return 1
    cc -std=gnu11 -O2 -Wall -Wextra -shared -fPIC -o "$1/calls.so" clients/calls.c
}

# The next port that neither UDP nor TCP has taken, into `port`. Each script has a thousand of its own, so that none that runs beside it
# takes one between the look and the start of a server. All lie below the ports that sockets get which ask for none; check-hostile-server.py
# has 29000 and on.
case ${0##*/} in
    check-rows.sh) first_port=21000 ;;
    check-c.sh) first_port=22000 ;;
    check-bindings.sh) first_port=23000 ;;
    check-clients.sh) first_port=24000 ;;
    check-operator.sh) first_port=25000 ;;
    check-admission.sh) first_port=26000 ;;
    check-metrics.sh) first_port=27000 ;;
    check-deploy.sh) first_port=28000 ;;
    *) first_port=20000 ;;
esac
port=$((first_port + RANDOM % 1000))
free_port() {
    local taken
    taken=$(awk 'FNR > 1 { sub(/.*:/, "", $2); print $2 }' /proc/net/udp /proc/net/udp6 /proc/net/tcp /proc/net/tcp6 2> /dev/null)
    while :; do
        port=$((first_port + (port + 1) % 1000))
        grep -q "^$(printf '%04X' "$port")$" <<< "$taken" || return 0
    done
}

# Becomes a relay on port $2 of 127.0.0.1 with $3 slots and 3 channels: that of server.c in the directory $4 where $1 is `reference`, the
# same over our layer where it is `layer`, else the program $1, with $5 places in each queue between its threads where it is given.
# Where PROCESSOR is set, it runs on that processor alone. That program serves in as many threads as THREADS says, one where it isn't set, and
# with the options that `options` has, where that is set.
relay() {
    local on=()
    [ -z "${PROCESSOR:-}" ] || on=(taskset -c "$PROCESSOR")
    if [ "$1" = reference ]; then
        exec "${on[@]}" "$4/server" "$2" "$3" 3
    elif [ "$1" = layer ]; then
        exec "${on[@]}" "$4/our-server" "$2" "$3" 3
    else
        exec "${on[@]}" "$1" serve --port "$2" --peers "$3" --channels 3 --forever ${5:+--queue-capacity "$5"} \
            ${THREADS:+--threads "$THREADS"} ${options[@]+"${options[@]}"} < /dev/null
    fi
}
