#!/usr/bin/env bash
# Programs that were built for libenet, on ours: `check-games.sh [ARCHIVE]`, run by hand. ARCHIVE is the proved part, by default
# crates/enet_c/out/libenet_c.a. Fetches Debian's cube2-server, redeclipse-server, yuzu, godot3-server and python3-enet, with the libraries
# that they need (50 MB), without installing them, and runs each, in a network namespace of its own, with libenet at both ends (the control),
# with our libenet.so.7 at either end, and at both; the clients of the first three are those of c/games:
# - cube2: its server registers with a master server by TCP, takes two players of an address and no third (maxdupclients, duplicatePeers); it
#   uses NO_ALLOCATE with callbacks, and packet_resize;
# - redeclipse: its server, without the game's data (860 MB), which it doesn't ask for, welcomes two players with 130,000 bytes each, and
#   throws out a third; it uses sockets of its own (socketset_select), and packet_resize;
# - yuzu: a room, in which two members talk and send a game's datagrams, and which refuses a third; it uses host_broadcast and host_flush;
# - godot3: a server and a client over its multiplayer, in the compression modes 0 (none), 1 (the range coder) and 2 to 4 (its own); it uses
#   peer_reset;
# - python3-enet: plain, with a checksum (enet_crc32), with an interceptor, with the range coder, and with all three; it reads fields of a peer;
# - love: LÖVE, whose program has an ENet of its own, at one end, and python3-enet over libenet or over ours at the other. It and what it needs
#   here (6 MB) are SKIPPED where they can't be fetched.
# Not here is 0ad: its server is the game itself, which starts with its data alone, 1.4 GB to fetch and 3.2 GB on the disk.
# Prints a line for each, 'passed' or 'failed', and as last line 'N passed, M failed'; the status is 1 where one failed. It takes root, for
# the namespace, a network to Debian's packages, and some five minutes.
cd "$(dirname "$0")/../.." || exit 1
. scripts/lib/clients.sh
packages=(cube2-server redeclipse-server redeclipse-common yuzu godot3-server python3-enet libenet7 libsquish0 libtheora0 libvpx7 libvorbis0a
    libopus0 libogg0 libpcre2-32-0 libwebp7 libfreetype6 libpng16-16 libbrotli1 libsqlite3-0 libmbedcrypto7 libcpp-httplib0.11 libfmt9 libssl3)

# Everything that the runs need, in the folder `room`.
prepare() {
    mkdir -p "$room/debs" "$room/root" "$room/home" "$room/cube" "$room/godot" "$room/eclipse/data/maps" || return 1
    chmod 755 "$room" "$room/debs" && mkfifo "$room/quiet" || return 1
    (cd "$room/debs" && apt-get download "${packages[@]}") || return 1
    local deb
    for deb in "$room"/debs/*.deb; do dpkg-deb -x "$deb" "$room/root" || return 1; done
    bash scripts/by-hand/build-c.sh "$room/made" "$1" || return 1
    local game
    for game in cube eclipse room; do cc -O1 -Wall -Wextra "c/games/$game.c" -o "$room/$game-client" -lenet || return 1; done
    cp c/games/visit.gd c/games/project.godot "$room/godot/" && cp c/games/visit.py c/games/master.py "$room/" || return 1
    printf '%s\n' 'maxclients 8' 'maxdupclients 2' 'updatemaster 1' 'mastername "127.0.0.1"' 'serverport 28785' > "$room/cube/server-init.cfg"
    # Red Eclipse's server looks for a file of the game's data and reads its own settings.
    touch "$room/eclipse/data/maps/readme.txt" && ln -s "$room/root/usr/share/games/redeclipse"/* "$room/eclipse/" || return 1
    printf '%s\n' 'servertype 1' 'serverport 28801' > "$room/home/servinit.cfg"
}

# LÖVE and what the machine hasn't of what it needs, in the folder `love` of `room`. Nothing is fetched where it is installed.
fetch_love() {
    mkdir -p "$room/fetched/partial" "$room/love" && cp -r c/games/love "$room/visit.love" || return 1
    apt-get -y --no-install-recommends --download-only -o Debug::NoLocking=1 -o APT::Sandbox::User=root \
        -o "Dir::Cache::archives=$room/fetched" install love || return 1
    local deb
    for deb in "$room"/fetched/*.deb; do [ ! -e "$deb" ] || dpkg-deb -x "$deb" "$room/love" || return 1; done
    love_program
}

# The program of LÖVE, into `love`.
love_program() {
    love=$(compgen -G "$room/love/usr/bin/love*" || command -v love) && love=${love%%$'\n'*}
}

# Runs the rest of the words with the library $1, ours or libenet's.
on() {
    local libs=$room/root/usr/lib/x86_64-linux-gnu
    [ "$1" = ours ] && libs=$room/made/lib/gofnjerta:$libs
    HOME=$room/home LANG=en_US.UTF-8 PYTHONPATH=$room/root/usr/lib/python3/dist-packages LD_LIBRARY_PATH=$libs timeout 60 "${@:2}"
}

# Waits until somebody listens at the UDP port $1, at most 20 seconds.
until_bound() {
    for _ in {1..200}; do
        grep -q ":$(printf '%04X' "$1") " /proc/net/udp && return
        sleep 0.1
    done
    return 1
}

# Two ends, of which each says by its status whether all came: the name $1, then what both run, `serve` and `visit` in between with a port.
both_ends() {
    local name=$1 server=$2 client=$3 to=$port
    port=$((port + 1))
    on "$server" "${@:4:$#-4}" serve "$to" "${@:$#}" > "$room/server" 2>&1 &
    local relay=$!
    until_bound "$to" && on "$client" "${@:4:$#-4}" visit "$to" "${@:$#}" > "$room/client" 2>&1 && wait "$relay"
    tell $? "$name" "$server" "$client"
    kill "$relay" 2> /dev/null
    wait "$relay" 2> /dev/null
}

# An end of a connection, $2 being `serve` or `visit` and $3 the port: by LÖVE where $1 is `love`, else by python3-enet over the library $1.
end_by() {
    local libs=$room/love/usr/lib/x86_64-linux-gnu
    if [ "$1" = love ]; then
        HOME=$room/home LD_LIBRARY_PATH=$libs:$libs/pulseaudio timeout 60 "$love" "$room/visit.love" "$2" "$3"
    else
        on "$1" /usr/bin/python3 "$room/visit.py" "$2" "$3" plain
    fi
}

# LÖVE and python3-enet, of which $1 serves and $2 visits.
love_and_python() {
    local to=$port
    port=$((port + 1))
    end_by "$1" serve "$to" > "$room/server" 2>&1 &
    local relay=$!
    until_bound "$to" && end_by "$2" visit "$to" > "$room/client" 2>&1 && wait "$relay"
    tell $? 'love and python3-enet' "$1" "$2"
    kill "$relay" 2> /dev/null
    wait "$relay" 2> /dev/null
}

# A game's server, run by the words from $6 on in the folder $4, and the client $5-client at its port $3; $1 and $2 are their libraries. It
# serves until it is ended; nothing comes from its standard input, which stays open.
visited() {
    (cd "$room/$4" && on "$1" "${@:6}") > "$room/server" 2>&1 <> "$room/quiet" &
    local relay=$! status
    until_bound "$3" && on "$2" "$room/$5-client" "$3" > "$room/client" 2>&1
    status=$?
    pkill -P "$relay" 2> /dev/null
    kill "$relay" 2> /dev/null
    wait "$relay" 2> /dev/null
    return "$status"
}

# Cube 2's server with a master server beside it, and its clients.
cube() {
    /usr/bin/python3 "$room/master.py" > "$room/master" 2>&1 &
    local master=$!
    for _ in {1..100}; do grep -q '0100007F:7073 00000000:0000 0A' /proc/net/tcp && break; sleep 0.1; done # 28787, and it listens
    visited "$1" "$2" 28785 cube cube "$room/root/usr/lib/cube2/cube2_server" "-q$room/cube" && wait "$master" &&
        grep -q 'master server registration succeeded' "$room/server"
    tell $? cube2 "$1" "$2"
    kill "$master" 2> /dev/null
    wait "$master" 2> /dev/null
}

tell() {
    if [ "$1" = 0 ]; then
        passed=$((passed + 1))
        echo "passed  $2: $3 serves, $4 visits"
    else
        failed=$((failed + 1))
        echo "FAILED  $2: $3 serves, $4 visits: $(tail -n 5 "$room/server" "$room/client" 2>&1)"
    fi
}

run_all() {
    local pair mode way
    ip link set lo up || return 1
    for pair in "libenet libenet" "ours libenet" "libenet ours" "ours ours"; do
        read -ra ends <<< "$pair"
        cube "${ends[@]}"
        visited "${ends[@]}" 28801 eclipse eclipse "$room/root/usr/lib/games/redeclipse/redeclipse-server" "-h$room/home"
        tell $? redeclipse "${ends[@]}"
        visited "${ends[@]}" 24872 home room "$room/root/usr/games/yuzu-room" --room-name hall --preferred-game none --port 24872
        tell $? yuzu "${ends[@]}"
        for mode in 0 1 2 3 4; do
            both_ends "godot3, mode $mode" "${ends[@]}" "$room/root/usr/bin/godot3-server" --path "$room/godot" -s visit.gd "$mode"
        done
        for way in plain checksum intercept coder all; do
            both_ends "python3-enet, $way" "${ends[@]}" /usr/bin/python3 "$room/visit.py" "$way"
        done
    done
    [ -d "$room/visit.love" ] && love_program || return 0
    for way in libenet ours; do
        love_and_python "$way" love
        love_and_python love "$way"
    done
}

port=$((21000 + RANDOM % 5000))
passed=0
failed=0
if [ "${1:-}" = --inside ]; then
    room=$2
    run_all || failed=$((failed + 1))
    echo "$passed passed, $failed failed"
    [ "$failed" -eq 0 ] && [ "$passed" -gt 0 ]
    exit
fi
room=$(mktemp -d) || exit 1
trap 'rm -rf "$room"' EXIT
archive=${1:-crates/enet_c/out/libenet_c.a}
build_clients "$room" > "$room/said" 2>&1 && prepare "$archive" >> "$room/said" 2>&1 || { first_error "$room/said"; echo '0 passed, 1 failed'; exit 1; }
fetch_love > "$room/said" 2>&1 || { rm -rf "$room/visit.love"; echo "SKIPPED love: $(tail -n 1 "$room/said")"; }
unshare -n bash scripts/by-hand/check-games.sh --inside "$room"
