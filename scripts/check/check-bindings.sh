#!/usr/bin/env bash
# The bindings of bindings/ over the library for C: `check-bindings.sh [FOLDER]`. FOLDER is one that scripts/by-hand/build-c.sh has made; by
# default it is made over the proved part, crates/enet_c/out/libenet_c.a, which `rt lib` leaves there, or after `rt ci` scripts/lib/archive-c.sh.
#
# Rust (bindings/rust), by Debian's cargo, and clippy and the documentation also by the one that is first in PATH:
# - its tests, of which one compares its structures with the lines of gofnjerta_layout.h; clippy and `cargo doc` without a word;
# - linked by the archive, and by pkg-config with the shared library; where it finds neither, it names both ways;
# - each growth of memory refused in turn, under valgrind: calls end in an error value, nothing is lost and nothing leaks;
# - a game tested under 1,000 seeds over lines in memory, and with a fault, which is found.
#
# C++ (bindings/cpp), by g++, and by clang++ if there is one:
# - its header and all that is built over it, without a warning; gofnjerta_layout.h asserts the structures;
# - two hosts in memory and two endpoints, by each call, with AddressSanitizer and UndefinedBehaviorSanitizer, and the same with each growth of
#   memory refused in turn: calls end in an error value, and nothing leaks.
#
# Python (bindings/python), by Debian's python3, of the wheel that is built here:
# - the wheel's name, the library in it, and its types by mypy;
# - its tests, of which one compares its structures with the lines of gofnjerta_layout.h; each growth of memory refused in turn: calls raise E1,
#   and no block is left;
# - a game tested under 1,000 seeds over lines in memory, and with a fault, which is found.
#
# Each of them:
# - a server's endpoint is recorded while it echoes what a client says, and gofnjerta_replay finds the same again;
# - the echo server with four clients of the reference library that say 10,000 packets (clients/many.c) over a line that loses, repeats and
#   reorders datagrams (clients/proxy.c), with one straight, and with packets of 0 to 20,000 bytes (clients/echo.c);
# - the arena with six such clients (clients/fray.c) over that line: who sends garbage is sent away, and who reads nothing is noticed.
#
# As root it installs what is missing of gcc, libenet-dev, pkg-config, valgrind, cargo, rust-clippy, g++, python3-build, python3-setuptools,
# python3-wheel and mypy; what can't be had is SKIPPED, and counted. Whether captures of games can be drawn is SKIPPED where no built
# crates/enet_relay/out/enet_relay draws them. Prints what failed, and as last line 'N passed, M failed'; the status is
# 1 if one failed. It takes two minutes of a processor, sends only within 127.0.0.1, and ends within 10 minutes.
cd "$(dirname "$0")/../.." || exit 1
. scripts/lib/clients.sh
. scripts/lib/tally.sh
made=${1:+$(realpath "$1")}
archive=crates/enet_c/out/libenet_c.a
relay=$PWD/crates/enet_relay/out/enet_relay
skipped=0

skip() {
    echo "SKIPPED $1: $2"
    skipped=$((skipped + 1))
}

# Whether the command $1 is there, installed with the packages behind it if it is missing.
have() {
    command -v "$1" > /dev/null || install_packages "${@:2}" > "$room/install" 2>&1
    command -v "$1" > /dev/null
}

# Runs the command after the name $1, a program for 1,000 seconds at most, and counts whether it ended well.
try() {
    local name=$1 limited=(timeout 1000)
    shift
    [ "$(type -t "$1")" != function ] || limited=()
    if "${limited[@]}" "$@" > "$room/$name.out" 2>&1; then
        passed=$((passed + 1))
    else
        fail "$name" "$(first_error "$room/$name.out")"
    fi
}

# Starts the scenario that is the function $2, with the words behind it, beside others; $1 is its name. What a function starts it names in
# `started`. Where it ends with status 2, since something came too late, as it may on a busy machine, it is tried once more.
begin() {
    names+=("$1")
    scenario "$@" &
}

scenario() {
    local name=$1 status
    shift
    started=
    trap 'kill $started 2> /dev/null' EXIT
    trap 'exit 1' TERM
    for _ in 1 2; do
        "$@" > "$room/$name.out" 2>&1
        status=$?
        kill $started 2> /dev/null
        wait
        started=
        [ "$status" -eq 2 ] || break
    done
    [ "$status" -ne 0 ] || : > "$room/$name.passed"
}

# Waits for all scenarios, and counts them.
count_scenarios() {
    local name
    wait
    for name in "${names[@]}"; do
        if [ -e "$room/$name.passed" ]; then passed=$((passed + 1)); else fail "$name" "$(head -c 2000 "$room/$name.out")"; fi
    done
    names=()
}

# Starts a server: the words from $2 on, in which ADDRESS stands for 127.0.0.1 with port $1, and PORT for that port, and waits until it is taken.
serve() {
    local at words=("${@:2}")
    words=("${words[@]//ADDRESS/127.0.0.1:$1}")
    "${words[@]//PORT/$1}" &
    started="$started $!"
    for _ in {1..600}; do
        at=$(printf ':%04X ' "$1")
        ! grep -q "$at" /proc/net/udp || return 0
        sleep 0.1
    done
    echo "nobody serves port $1"
    return 1
}

# Starts the line on port $2 to the server on port $1.
lossy() {
    "$room/proxy" "$2" "$1" 7 &
    started="$started $!"
    until grep -q "$(printf ':%04X ' "$2")" /proc/net/udp || ! kill -0 $!; do sleep 0.1; done
}

# Two free ports, into `first` and `port`.
two_ports() {
    free_port
    first=$port
    free_port
}

# 10,000 packets that come back: $3 clients with as many each, at the server that the words from $4 on start on port $1, by the line on port $2.
echo_lossy() {
    local client clients=() status=0
    serve "$1" "${@:4}" && lossy "$1" "$2" || return
    for ((client = 0; client < $3; client++)); do
        timeout 330 "$room/many" "$2" $((10000 / $3)) &
        clients+=($!)
    done
    for client in "${clients[@]}"; do
        wait "$client" || status=$?
    done
    return "$status"
}

# The same straight, by one client, and then packets up to 20,000 bytes: the server that the words from $2 on start on port $1.
echo_straight() {
    serve "$1" "${@:2}" && timeout 330 "$room/many" "$1" 10000 && timeout 330 "$room/echo" "$1"
}

# Four players in the arena that the words from $4 on start on port $1, by the line on port $2; it writes to the file $3. It says who sent
# garbage, as one of them did, and that the one who read nothing is slow.
arena() {
    local slot
    serve "$1" "${@:4}" > "$3" && lossy "$1" "$2" || return
    slot=$(timeout 330 "$room/fray" "$2" 4 6) || return
    cat "$3"
    [ "$(grep -c ' garbage$' "$3")" = 1 ] && grep -q "^$slot slow$" "$3"
}

# Starts the scenarios of the echo server and of the arena, which the words of the arrays `echo_server` and `arena_server` start; $1 is the
# language. The straight echo server is started by `straight_server`.
talk() {
    two_ports
    begin "$1-echo-lossy" echo_lossy "$first" "$port" 4 "${echo_server[@]}"
    free_port
    begin "$1-echo-straight" echo_straight "$port" "${straight_server[@]}"
    two_ports
    begin "$1-arena" arena "$first" "$port" "$room/$1-arena.said" "${arena_server[@]}"
}

# Whether `inspect` draws the capture $1, with the words behind it, if that program is there: a connection, whose datagrams it tells.
is_drawn() {
    [ -x "$relay" ] || return 0
    "$relay" inspect "$1" --timeline "$1.svg" "${@:2}" > "$1.told" && grep -q '10\.0\.0\.1:7777' "$1.told" && grep -q '</svg>' "$1.svg" && return
    tail -n 3 "$1.told"
    return 1
}

# Whether the game with a fault that the words from $2 on play in the new folder $1 names a seed, and leaves its datagrams, which can be drawn.
fails_with_seed() {
    local captures folder=$1
    mkdir "$folder"
    ! (cd "$folder" && exec timeout 600 "${@:2}") > "$folder/said" || return
    cat "$folder/said"
    captures=("$folder"/*.pcap)
    grep -q '^seed [0-9]*: ' "$folder/said" && [ "${#captures[@]}" = 1 ] && [ -s "${captures[0]}" ] && is_drawn "${captures[0]}"
}

# cargo in bindings/rust, without the user's own folder, so that its commands are found beside it: $1 is the folder of the compiler, $2 that of
# what is built.
cargo_by() {
    (cd bindings/rust && PATH=$1:$PATH CARGO_HOME=$room/cargo CARGO_TARGET_DIR=$2 CARGO_NET_OFFLINE=true exec timeout 1500 cargo "${@:3}")
}

# clippy and the documentation by the cargo in the folder $1; $2 is where it builds, $3 its name here.
rust_lints() {
    if [ -x "$1/cargo-clippy" ]; then
        try "$3-clippy" cargo_by "$1" "$2" clippy --all-targets -- -D warnings
    else
        skip "$3-clippy" "there is no cargo-clippy"
    fi
    RUSTDOCFLAGS='-D warnings' try "$3-doc" cargo_by "$1" "$2" doc --no-deps
}

# Whether the crate, where it finds no library, names both ways to one.
rust_names_both_ways() {
    ! PKG_CONFIG=false cargo_by "$1" "$room/rust-none" build > "$room/rust-none.said" 2>&1 &&
        grep -q 'GOFNJERTA_DIR=FOLDER links' "$room/rust-none.said" && grep -q 'pkg-config finds gofnjerta.pc' "$room/rust-none.said" && return
    cat "$room/rust-none.said"
    return 1
}

# The test of refused growths under valgrind, as it was built in the folder $1.
rust_memory() {
    local test
    for test in "$1"/debug/deps/memory-*; do
        [ -x "$test" ] && [[ $test != *.d ]] || continue
        LD_PRELOAD=$room/refuse.so timeout 1500 valgrind -q --soname-synonyms=somalloc=nouserintercepts --leak-check=full \
            --errors-for-leak-kinds=definite,indirect,possible --error-exitcode=9 "$test" > "$room/rust-memory.said" 2>&1
        local status=$?
        cat "$room/rust-memory.said"
        [ "$status" -eq 0 ] && grep -q '^endpoints: ' "$room/rust-memory.said"
        return
    done
    echo 'it was not built'
    return 1
}

# The game's 1,000 seeds go well. With moves that aren't reliable a seed is found and named, and its datagrams are left.
rust_game() {
    local game=bindings/rust/examples/arena_test.rs
    timeout 600 "$1/release/examples/arena_test" && sed 's/Delivery::Reliable/Delivery::Unreliable/' "$game" > "$room/faulty.rs" &&
        ! cmp -s "$game" "$room/faulty.rs" &&
        "$2/rustc" --edition 2021 -O -o "$room/faulty" --extern "gofnjerta=$1/release/libgofnjerta.rlib" "$room/faulty.rs" &&
        fails_with_seed "$room/rust-fault" "$room/faulty"
}

rust() {
    local first_cargo folder by target=$room/rust-target
    first_cargo=$(command -v cargo)
    [ -x /usr/bin/cargo-clippy ] || install_packages cargo rust-clippy > "$room/install" 2>&1
    folder=/usr/bin
    if ! [ -x /usr/bin/cargo ]; then
        skip rust-debian "Debian's cargo can't be had"
        folder=$(dirname "$first_cargo")
        [ -n "$first_cargo" ] || { skip rust 'there is no cargo'; return; }
    fi
    export GOFNJERTA_DIR=$made
    try rust-test cargo_by "$folder" "$target" test
    rust_lints "$folder" "$target" rust
    by=$(dirname "${first_cargo:-/usr/bin/cargo}")
    [ "$by" = "$folder" ] || rust_lints "$by" "$room/rust-newest" rust-newest
    try rust-release cargo_by "$folder" "$target" build --release --lib --example arena_test
    echo_server=("$target/debug/examples/echo" ADDRESS)
    straight_server=("${echo_server[@]}")
    arena_server=("$target/debug/examples/arena" ADDRESS)
    unset GOFNJERTA_DIR
    try rust-names-both-ways rust_names_both_ways "$folder"
    if have pkg-config pkg-config; then
        PKG_CONFIG_PATH=$made/lib/pkgconfig try rust-pkg-config cargo_by "$folder" "$room/rust-shared" build --example echo
        straight_server=(env "LD_LIBRARY_PATH=$made/lib" "$room/rust-shared/debug/examples/echo" ADDRESS)
    else
        skip rust-pkg-config 'there is no pkg-config'
    fi
    talk rust
    begin rust-game rust_game "$target" "$folder"
    if have valgrind valgrind && cc -shared -fPIC -O1 -Wall -Wextra bindings/rust/tests/refuse.c -o "$room/refuse.so"; then
        begin rust-memory rust_memory "$target"
    else
        skip rust-memory 'there is no valgrind'
    fi
    count_scenarios
}

# Compiles the source $2 of bindings/cpp to the program $3 by the compiler $1, with the words behind them.
cpp_compile() {
    "$1" -std=c++17 -O1 -g -Wall -Wextra -Wpedantic -Werror "-I$made/include" "bindings/cpp/$2" -o "$room/$3" "${@:4}"
}

# The record of an echo by two endpoints is replayed.
cpp_replayed() {
    timeout 600 "$room/cpp-host" record "$room/cpp.record" && "$made/bin/gofnjerta_replay" "$room/cpp.record"
}

# Block $3 in the language $2 of the document $1.
shown() {
    awk -v language="$2" -v wanted="$3" '/^```/ { inside = $0 == "```" language && ++found == wanted; next } inside' "$1"
}

cpp() {
    local checked=(-fsanitize=address,undefined -fno-sanitize-recover=all) wrap=-Wl,--wrap=malloc,--wrap=realloc clang=
    have g++ g++ || { skip cpp 'there is no g++'; return; }
    try cpp-host-built cpp_compile g++ tests/host.cpp cpp-host "${checked[@]}" "$wrap" "$made/lib/libgofnjerta.a"
    try cpp-echo-built cpp_compile g++ examples/echo.cpp cpp-echo -fno-exceptions -fno-rtti "-L$made/lib" -lgofnjerta
    try cpp-arena-built cpp_compile g++ examples/arena.cpp cpp-arena "${checked[@]}" "$made/lib/libgofnjerta.a"
    shown bindings/cpp/README.md cpp 1 > "$room/shown.cpp"
    try cpp-readme g++ -std=c++17 -Wall -Wextra -Wpedantic -Werror "-I$made/include" "$room/shown.cpp" -o "$room/shown" "-L$made/lib" \
        -lgofnjerta
    for clang in clang++-14 clang++ ''; do
        ! command -v "$clang" > /dev/null || break
    done
    if [ -n "$clang" ]; then
        try cpp-clang cpp_compile "$clang" tests/host.cpp cpp-clang-host "$wrap" "$made/lib/libgofnjerta.a"
        try cpp-clang-syntax cpp_compile "$clang" examples/arena.cpp cpp-clang-arena -fsyntax-only
    else
        skip cpp-clang 'there is no clang++'
    fi
    echo_server=(env "LD_LIBRARY_PATH=$made/lib" "$room/cpp-echo" ADDRESS)
    straight_server=("${echo_server[@]}")
    arena_server=("$room/cpp-arena" ADDRESS)
    talk cpp
    begin cpp-host timeout 600 "$room/cpp-host"
    begin cpp-replayed cpp_replayed
    begin cpp-memory timeout 600 "$room/cpp-host" refuse
    count_scenarios
}

# The wheel, built of a copy of the package, so that nothing is left there.
python_wheel() {
    cp -r bindings/python "$room/package" && rm -rf "$room/package/dist" "$room/package/build" &&
        GOFNJERTA_DIR=$made "$python" -m build --no-isolation --outdir "$room/wheel" "$room/package" && cat "$room/wheel/"*.whl > /dev/null &&
        [ "$(cd "$room/wheel" && echo *.whl)" = "gofnjerta-$(<VERSION)-py3-none-manylinux_2_34_x86_64.whl" ] &&
        "$python" -m zipfile -e "$room/wheel/"*.whl "$room/site" && [ -r "$room/site/gofnjerta/libgofnjerta.so.0" ]
}

# A library that refuses growths of memory, and each call of the package over it.
python_memory() {
    mkdir -p "$room/refusing/lib"
    cc -O1 -shared -fPIC -Wall -Wextra -o "$room/refusing/lib/libgofnjerta.so.0" bindings/python/tests/refuse.c \
        -Wl,--wrap=malloc,--wrap=realloc,--wrap=free -Wl,--whole-archive "$made/lib/libgofnjerta.a" -Wl,--no-whole-archive &&
        GOFNJERTA_DIR=$room/refusing PYTHONPATH=bindings/python timeout 600 "$python" bindings/python/tests/refuse.py
}

# The game's 1,000 seeds go well. Where its server tells who has a coin unreliably, a seed is found and named, and its datagrams are left.
python_game() {
    local game=bindings/python/examples/coins.py
    timeout 600 "${packaged[@]}" "$game" && sed 's/^DELIVERY = .*/DELIVERY = Delivery.UNRELIABLE/' "$game" > "$room/coins.py" &&
        ! cmp -s "$game" "$room/coins.py" && fails_with_seed "$room/python-fault" "${packaged[@]}" "$room/coins.py"
}

# The network of the README, whose server gets a packet.
python_readme() {
    shown bindings/python/README.md python 2 > "$room/shown.py" && (cd "$room" && "${packaged[@]}" shown.py > shown.said) &&
        grep -q "b'hello'" "$room/shown.said" && [ -s "$room/seed-17.pcap" ] && is_drawn "$room/seed-17.pcap" --at RIGHT
}

python() {
    local python=/usr/bin/python3 packaged
    "$python" -c 'import build, setuptools, wheel' 2> /dev/null ||
        install_packages python3 python3-build python3-setuptools python3-wheel > "$room/install" 2>&1
    "$python" -c 'import build, setuptools, wheel' 2> /dev/null || { skip python "Debian's python3 can't be had, or its build"; return; }
    try python-wheel python_wheel
    packaged=(env -u GOFNJERTA_DIR "PYTHONPATH=$room/site" PYTHONDONTWRITEBYTECODE=1 "HEADERS=$PWD/c" "REPLAY=$made/bin/gofnjerta_replay"
        "$python")
    if have mypy mypy; then
        try python-types mypy --strict --python-executable "$python" --cache-dir "$room/mypy" bindings/python/gofnjerta bindings/python/examples \
            bindings/python/tests/test_gofnjerta.py
        MYPYPATH=bindings/python try python-types-refuse mypy --strict --cache-dir "$room/mypy" bindings/python/tests/refuse.py
    else
        skip python-types 'there is no mypy'
    fi
    echo_server=("${packaged[@]}" -m gofnjerta echo ADDRESS)
    straight_server=("${echo_server[@]}")
    arena_server=("${packaged[@]}" bindings/python/examples/arena.py ADDRESS)
    talk python
    begin python-tests timeout 600 "${packaged[@]}" -W error -m unittest discover -s bindings/python/tests
    begin python-memory python_memory
    begin python-game python_game
    begin python-readme python_readme
    count_scenarios
}

# Of the library for C, the programs of clients/ and the bindings.
all() {
    if [ -z "$made" ]; then
        made=$room/made
        bash scripts/by-hand/build-c.sh "$made" "$archive" > "$room/made.out" 2>&1 || { fail build-c "$(first_error "$room/made.out")"; return; }
    fi
    [ -x "$relay" ] || skip pictures "there is no $relay"
    build_clients "$room" many fray proxy echo || { fail clients "the C programs can't be built"; return; }
    rust
    cpp
    python
}

room=$(mktemp -d) || exit 1
trap 'kill $(jobs -p) 2> /dev/null; wait; rm -rf "$room"' EXIT
names=()
if [ -z "$made" ] && ! [ -r "$archive" ]; then
    fail "$archive" "it isn't there: run 'rt lib' in crates/enet_c, or after 'rt ci' scripts/lib/archive-c.sh"
else
    all
fi
[ "$skipped" -eq 0 ] || echo "$skipped skipped"
echo "$passed passed, $failed failed"
[ "$failed" -eq 0 ]
