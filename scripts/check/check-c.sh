#!/usr/bin/env bash
# The library for C and libenet's API over it: `check-c.sh [ARCHIVE]`. ARCHIVE is the proved part, by default crates/enet_c/out/libenet_c.a,
# which `rt lib` makes there, or after `rt ci` scripts/lib/archive-c.sh. Builds both (scripts/by-hand/build-c.sh) and runs
# - the tests of c/tests: the header against the library and bad use (border), two hosts in memory over a lossy net (lossy), whom a host lets
#   in, by a model of the rules (admitted), limits, lines and ends of connections (told), records of hosts (record, and the program
#   gofnjerta_replay), each allocation failing in turn (memory), and the blocks that the layer keeps (pool, also as it is built for
#   debugging); plain, with AddressSanitizer and UndefinedBehaviorSanitizer, and under valgrind;
# - the structures of gofnjerta.h lie, for C and C++, as the lines of gofnjerta_layout.h say (shapes, shapes-c++), and its calls are all that the
#   shared library gives away (declared);
# - the layer: its structures lie as the reference library's header says (layout), what isn't offered is refused, and packets that are sent
#   while others are let go come as they are (refusals); the reference library and ours do the same with packets of any length and their
#   bytes (packets), with ten thousand calls drawn from a seed, of which all ways to end (calls), where packets are taken peer by peer
#   (waiting), and with what programs read and write beside their calls (alike, also as it is built for the reference library); the range
#   coder's codes are the reference library's, and no others are opened (coder); a handle and a host go from thread to thread (threads, also
#   with ThreadSanitizer); a packet of 20,000 bytes leaves by two calls of the system's at most, and comes (trains_sent); a million
#   datagrams of strangers disturb nobody at a host with callbacks around each datagram, or the range coder (storm); the fields that
#   programs read are the reference library's but for those that c/tests/fields.differ names (fields);
# - conversations of the programs in clients/ that use no more than what is offered, compiled unchanged against c/enet/enet.h, with the
#   reference library at the other end, both ways round, straight and through clients/proxy.c; one runs a program that was built for
#   libenet on our shared library;
# - programs that weren't written for it: libenet's tutorial (c/tests/tutorial.c) on the layer, and Debian's python3-enet, which was built
#   for libenet, on our shared library (c/tests/binding.py), each with the reference library at the other end, both ways round;
# - the program that docs/C.md shows, and bindings/echo.py, as they are except for their port, with either at the other end;
# - sockets by TCP, duplicatePeers, intercept, compressor, checksum and range coder (c/tests/offered.c), with each of the libraries at either
#   end;
# - what waits at a receiver never keeps the next packet out for good: the reference library or the layer sends, the layer receives
#   (progress);
# - over a network and a clock in memory (c/tests/memory_net.h): the fuzzer's inputs, those of c/tests/fuzz.corpus and drawn ones, with
#   sanitizers (fuzz); how long a dead peer takes to be noticed, by settings, beside the reference library (patience); bad lines with
#   both ends ours, on which no connection is lost (lines); datagrams from port 0, sends that fail to one destination, compressed datagrams
#   of strangers and connect ids (strangers); who gets a slot beside strangers' CONNECTs (newcomers); and datagrams that leave by one call of
#   the system's go once and in order, a packet of 20,000 bytes by two calls at most (trains);
# - installed below a prefix, it is found by pkg-config under libenet's name, and each header stands alone; and it is taken away.
# Prints what failed, and as last line 'N passed, M failed'; the status is 1 where one failed or nothing was tried. It ends within 4
# minutes on a machine at rest. As root it installs what is missing of gcc, g++, libenet-dev, valgrind, python3-enet and pkg-config.
cd "$(dirname "$0")/../.." || exit 1
. scripts/lib/clients.sh
. scripts/lib/in-memory.sh
. scripts/lib/tally.sh
archive=${1:-crates/enet_c/out/libenet_c.a}

fail() {
    echo "FAILED $1: $(first_error "$2" 2> /dev/null)"
    failed=$((failed + 1))
}

# Runs a command, a program for 1,000 seconds at most.
limited() {
    if [ "$(type -t "$1")" = function ]; then "$@"; else timeout 1000 "$@"; fi
}

# Runs the command after the name $1, and counts whether it ended well.
try() {
    local name=$1
    shift
    if limited "$@" > "$room/$name.out" 2>&1; then passed=$((passed + 1)); else fail "$name" "$room/$name.out"; fi
}

# Whether two files are the same: shows in at most twenty lines how they differ.
same_files() {
    diff -u "$1" "$2" > "$room/difference" && return
    head -n 20 "$room/difference"
    return 1
}

# Whether the fields that differ between the two outputs of c/tests/fields.c are those that c/tests/fields.differ names: what is in one list
# alone is printed. The sessions of a known peer aren't looked at: ours are drawn, so that they differ on some runs alone.
fields_differ() {
    diff <(diff "$room/fields.out" "$room/fields-theirs.out" | awk '/^[<>]/ { print ($2 ~ /^(made|apart)$/ ? "idle" : "known"), $4 }' |
        grep -v '^known peer\.\(incoming\|outgoing\)SessionID$' | sort -u) \
        <(sed -n 's/^\(idle\|known\) \([^:]*\):.*/\1 \2/p' c/tests/fields.differ | sort -u)
}

# Compiles the test $1 of c/tests to the program $2, with the words after them.
compile() {
    cc -std=gnu11 -O1 -g -Wall -Wextra -Ic "c/tests/$1.c" -o "$room/$2" "${@:3}"
}

build_tests() {
    local made=$room/made wrap=-Wl,--wrap=malloc,--wrap=realloc,--wrap=free checked=(-fsanitize=address,undefined -fno-sanitize-recover=all)
    local test
    for test in border lossy admitted told record; do
        compile "$test" "$test" "$made/lib/libgofnjerta.a" && compile "$test" "$test-checked" "${checked[@]}" c/gofnjerta.c "$room/checked.a" ||
            return 1
    done
    compile memory memory "$wrap" "$made/lib/libgofnjerta.a" && compile pool pool -pthread "$wrap" c/pool.c &&
        compile pool pool-checked -pthread "$wrap" "${checked[@]}" c/pool.c &&
        compile pool pool-debug -pthread "$wrap" -DGOFNJERTA_DEBUG c/pool.c && compile lossy lossy-shared -L"$made/lib" -lgofnjerta &&
        compile shapes shapes && compile layout layout-ours && cc c/tests/layout.c -o "$room/layout-theirs" && build_layer_tests &&
        compile tutorial our-tutorial "$made/lib/libgofnjerta_enet.a" && cc -Wall -Wextra c/tests/tutorial.c -o "$room/tutorial" -lenet &&
        compile progress our-progress "$made/lib/libgofnjerta_enet.a" && cc -O1 -Wall -Wextra c/tests/progress.c -o "$room/progress" -lenet
}

# The program that replays: a record, one with a changed byte, a cut one, and none.
replayed() {
    local replay=$room/made/bin/gofnjerta_replay file=$room/tape status
    "$room/record" write "$file" && "$replay" "$file" && { head -c 20000 "$file"; echo; tail -c +20002 "$file"; } > "$file.changed" &&
        head -c 20000 "$file" > "$file.cut" || return 1
    for file in "$file.changed 1" "$file.cut 1" "$file.none 2"; do
        "$replay" "${file% *}"
        status=$?
        [ "$status" -eq "${file##* }" ] || { echo "$file: status $status"; return 1; }
    done
}

# The lines of gofnjerta_layout.h, as a binding reads them.
laid_out() {
    sed -n 's/^GOFNJERTA_\(STRUCT\|FIELD\)(\(.*\));$/\2/p' c/gofnjerta_layout.h | tr -d ,
}

# The calls that gofnjerta.h declares, and the names that the shared library gives away.
declared() {
    sed -n 's/^[a-z].*[ *]\(gofnjerta_[a-z_]*\)(.*/\1/p' c/gofnjerta.h | sort
}

given_away() {
    nm -D --defined-only "$room/made/lib/libgofnjerta.so.0" | awk '{ print $NF }' | sort
}

# Those of the layer: on ours, plain and with sanitizers, and on the reference library where they compare the two.
build_layer_tests() {
    local test raced=(-fsanitize=thread) pooled=(c/enet/*.c c/gofnjerta.c c/pool.c "$room/parts.a")
    for test in "${layer_tests[@]}"; do
        compile "$test" "$test" "$made/lib/libgofnjerta_enet.a" &&
            compile "$test" "$test-checked" "${checked[@]}" c/enet/*.c c/gofnjerta.c "$room/checked.a" || return 1
    done
    for test in "${compared[@]}"; do
        cc -std=gnu11 -O1 -g -Wall -Wextra -DREFERENCE "c/tests/$test.c" -o "$room/$test-theirs" -lenet || return 1
    done
    compile fields fields "$made/lib/libgofnjerta_enet.a" && compile storm storm "$made/lib/libgofnjerta_enet.a" &&
        compile storm storm-checked "${checked[@]}" c/enet/*.c c/gofnjerta.c "$room/checked.a" || return 1
    compile offered our-offered "$made/lib/libgofnjerta_enet.a" && cc -std=gnu11 -O1 -Wall -Wextra c/tests/offered.c -o "$room/offered" -lenet &&
        compile offered offered-checked "${checked[@]}" c/enet/*.c c/gofnjerta.c "$room/checked.a" || return 1
    compile threads threads -pthread "$made/lib/libgofnjerta_enet.a" && compile threads threads-checked -pthread "${checked[@]}" "${pooled[@]}" &&
        compile threads threads-raced -pthread "${raced[@]}" "${pooled[@]}"
}

# Those over a network and a clock in memory.
build_memory_tests() {
    local made=$room/made checked=(-fsanitize=address,undefined -fno-sanitize-recover=all)
    build_in_memory "$room/fuzz" fuzz cc "$made" "${checked[@]}" && build_in_memory "$room/patience-checked" patience cc "$made" "${checked[@]}" &&
        build_in_memory "$room/patience" patience cc "$made" && build_in_memory "$room/lines" lines cc "$made" &&
        build_in_memory "$room/strangers" strangers cc "$made" && build_in_memory "$room/strangers-checked" strangers cc "$made" "${checked[@]}" &&
        build_in_memory "$room/newcomers" newcomers cc "$made" && build_in_memory "$room/newcomers-checked" newcomers cc "$made" "${checked[@]}" &&
        build_in_memory "$room/trains" trains cc "$made" && build_in_memory "$room/trains-checked" trains cc "$made" "${checked[@]}" &&
        cc -std=gnu11 -O1 -Wall -Wextra -DREFERENCE c/tests/patience.c c/tests/memory_net.c -rdynamic -o "$room/patience-theirs" -lenet
}

# The programs of clients/ on the layer: `server`, `client` and `crowd` as they are, and with sanitizers.
build_ours() {
    local program
    for program in server client crowd; do
        cc -std=gnu11 -O2 -Wall -Wextra -Ic -o "$room/our-$program" "clients/$program.c" "$room/made/lib/libgofnjerta_enet.a" || return 1
        cc -std=gnu11 -O1 -g -Wall -Wextra -Ic -fsanitize=address,undefined -o "$room/checked-$program" "clients/$program.c" c/enet/*.c \
            c/gofnjerta.c "$room/checked.a" || return 1
    done
}

# Without the C code, which is compiled anew with the sanitizers; `parts.a` has no memory of its own either, for what is linked with pool.c.
build_all() {
    build_clients "$room" && bash scripts/by-hand/build-c.sh "$room/made" "$archive" && cp "$room/made/lib/libgofnjerta.a" "$room/checked.a" &&
        ar d "$room/checked.a" gofnjerta.o && cp "$room/made/lib/libgofnjerta_enet.a" "$room/parts.a" &&
        ar d "$room/parts.a" enet.o gofnjerta.o pool.o && build_tests && build_memory_tests &&
        build_ours
}

# A conversation: the program $3 serves $5 slots, on port $6, and the clients $4.. talk, by way of the proxy on port $7 where $2 is lossy.
attempt() {
    local name=$1 way=$2 server=$3 client=$4 slots=$5 to=$6 status
    "$room/$server" "$6" "$slots" 3 > "$room/$name.server" 2>&1 &
    relay=$!
    until_bound "$6"
    if [ "$way" = lossy ]; then
        to=$7
        "$room/proxy" "$7" "$6" 5 2> "$room/$name.proxy" &
        proxy=$!
        until_bound "$7"
    fi
    read -ra words <<< "$client"
    LD_LIBRARY_PATH=${library:-} timeout 330 "$room/${words[0]}" "$to" "${words[@]:1}" > "$room/$name.client" 2>&1
    status=$?
    kill -0 "$relay" 2> /dev/null || { echo "the server ended" >> "$room/$name.client"; status=1; }
    kill $relay $proxy 2> /dev/null
    wait $relay $proxy 2> /dev/null
    grep -q "ERROR: \|runtime error" "$room/$name.server" && { cat "$room/$name.server" >> "$room/$name.client"; status=1; }
    relay=
    proxy=
    return "$status"
}

# The same in the background; a client that came too late (status 2), as on a machine that is busy, is let try once more.
converse() {
    free_port
    local first=$port
    free_port
    names+=("$1")
    {
        trap 'kill $relay $proxy 2> /dev/null' EXIT
        attempt "$@" "$first" "$port"
        case $? in
            0) : > "$room/$1.passed" ;;
            2) attempt "$@" "$first" "$port" && : > "$room/$1.passed" ;;
        esac
    } &
}

# Waits until somebody listens at $1, a minute at most: the reference library takes an early answer of the system for a fault.
until_bound() {
    for _ in {1..600}; do
        grep -q ":$(printf '%04X' "$1") " /proc/net/udp && return
        sleep 0.1
    done
}

# One of c/tests that has both ends in it: the command $2 serves on a port of its own, and $3 visits it.
meet() {
    local server client
    free_port
    names+=("$1")
    read -ra server <<< "$2"
    read -ra client <<< "$3"
    {
        trap 'kill $relay 2> /dev/null' EXIT
        timeout 1200 "${server[@]}" serve "$port" > "$room/$1.server" 2>&1 &
        relay=$!
        until_bound "$port"
        timeout 1000 "${client[@]}" visit "$port" > "$room/$1.client" 2>&1 && wait "$relay" && : > "$room/$1.passed"
    } &
}

# libenet's tutorial, compiled for either library, and Python's binding, which was built for libenet, on either.
meetings() {
    local case on_ours="env LD_LIBRARY_PATH=$room/made/lib/gofnjerta" binding="/usr/bin/python3 c/tests/binding.py"
    meet tutorial-ours "$room/our-tutorial" "$room/our-tutorial"
    meet tutorial-at-ours "$room/our-tutorial" "$room/tutorial"
    meet tutorial-at-reference "$room/tutorial" "$room/our-tutorial"
    meet tutorial-on-shared "$on_ours $room/tutorial" "$room/tutorial"
    meet binding-at-reference "$binding" "$on_ours $binding"
    meet binding-at-ours "$on_ours $binding" "$binding"
    for case in sockets duplicates intercept compress checksum both coder all; do
        meet "$case-ours" "$room/our-offered $case" "$room/our-offered $case"
        meet "$case-at-ours" "$room/our-offered $case" "$room/offered $case"
        meet "$case-at-reference" "$room/offered $case" "$room/our-offered $case"
        meet "$case-reference" "$room/offered $case" "$room/offered $case"
        meet "$case-checked" "$room/offered-checked $case" "$room/offered-checked $case"
    done
    for case in 1 2 3 4; do
        meet "progress-$case" "$room/our-progress $case" "$room/progress $case"
    done
    meet progress-4-ours "$room/our-progress 4" "$room/our-progress 4"
}

# Who serves, and who talks: ours and the reference library's, both ways round.
conversations() {
    local way scenario
    for way in straight lossy; do
        converse "talk-1-$way" "$way" our-server "client talk 1 reference $way" 8
        converse "talk-8-$way" "$way" our-server "client talk 8 reference $way" 8
        converse "large-$way" "$way" our-server "client large 2 reference $way" 2
        converse "again-$way" "$way" our-server "client again 2 reference $way" 4
        converse "idle-$way" "$way" our-server "client idle 2 reference $way" 2
        converse "vanish-$way" "$way" our-server "client vanish 3 reference $way" 2
        converse "full-$way" "$way" our-server "client full 5 reference $way" 4
        converse "talk-checked-$way" "$way" checked-server "client talk 2 reference $way" 8
        for scenario in "talk 8 8" "large 2 2" "again 2 4" "vanish 3 2"; do
            # The client asks for the next connection once its packets are acknowledged, which it takes from their being freed; our layer
            # frees a packet before that, so on a lossy way one may come after the connection that it was meant for.
            [ "$scenario $way" = "again 2 4 lossy" ] && continue
            converse "our-${scenario// /-}-$way" "$way" server "our-client ${scenario% *} reference $way" "${scenario##* }"
        done
        converse "our-talk-ours-$way" "$way" our-server "our-client talk 4 reference $way" 8
        converse "talk-checked-at-reference-$way" "$way" server "checked-client talk 2 reference $way" 8
        converse "crowd-at-reference-$way" "$way" server "our-crowd 8 20" 8
        converse "crowd-checked-$way" "$way" server "checked-crowd 4 10" 8
    done
    converse crowd-at-ours straight our-server "crowd 60 2" 60
    library=$room/made/lib/gofnjerta converse crowd-on-shared straight server "crowd 8 20" 8
    wait
}

# Puts the program of docs/C.md, and the same in Python, into $room/echo.c and echo.py, for the port `port`.
shown() {
    sed -n '/^```c$/,/^```$/{//!p}' docs/C.md | sed "s/7777/$port/" > "$room/echo.c" && [ -s "$room/echo.c" ] &&
        sed "s/7777/$port/" bindings/echo.py > "$room/echo.py"
}

# Makes both, and a program for libenet (the tutorial), those in C by the words of pkg-config, as docs/C.md says.
make_shown() {
    local words
    shown || return 1
    read -ra words <<< "$(PKG_CONFIG_PATH=$room/made/lib/pkgconfig pkg-config --cflags --libs gofnjerta)"
    cc -Wall -Wextra "$room/echo.c" "${words[@]}" -o "$room/shown" || return 1
    read -ra words <<< "$(PKG_CONFIG_PATH=$room/made/lib/pkgconfig pkg-config --cflags --libs gofnjerta-enet)"
    cc -Wall -Wextra c/tests/tutorial.c "${words[@]}" -o "$room/game"
}

# The command $1 serves at the port `port` until it is ended, and the command $2 says hello to it.
greet() {
    local server client said
    read -ra server <<< "$1"
    read -ra client <<< "$2"
    "${server[@]}" &
    relay=$!
    until_bound "$port"
    said=$(timeout 330 "${client[@]}" 127.0.0.1)
    kill "$relay"
    wait "$relay"
    relay=
    echo "$said"
    [ "$said" = 'got hello' ]
}

# Each of the two programs with each.
documented() {
    local in_c="env LD_LIBRARY_PATH=$room/made/lib $room/shown" in_python="/usr/bin/python3 $room/echo.py $room/made/lib/libgofnjerta.so"
    free_port
    try documented make_shown
    try documented-c greet "$in_c" "$in_c"
    try documented-python greet "$in_python" "$in_python"
    try documented-c-at-python greet "$in_python" "$in_c"
    try documented-python-at-c greet "$in_c" "$in_python"
}

# A program that asks for libenet, compiled and run where the library is installed; and its end.
installed() {
    local prefix=$room/prefix header words
    bash scripts/by-hand/install-c.sh "$prefix" "$archive" || return 1
    read -ra words <<< "$(PKG_CONFIG_PATH=$prefix/lib/gofnjerta/pkgconfig pkg-config --cflags --libs libenet)"
    for header in /usr/include/enet/*.h; do
        [ "$header" != /usr/include/enet/win32.h ] || continue
        echo "#include <enet/${header##*/}>" | cc -Wall -Wextra -Werror "${words[0]}" -x c -c - -o "$room/header.o" || return 1
    done
    cc -std=gnu11 c/tests/tutorial.c -o "$room/found" "${words[@]}" || return 1
    LD_LIBRARY_PATH=$prefix/lib/gofnjerta ldd "$room/found" | grep -q "$prefix/lib/gofnjerta/libenet.so.7" || return 1
    bash scripts/by-hand/install-c.sh --uninstall "$prefix" && [ -z "$(find "$prefix" ! -type d)" ] && [ ! -e "$prefix/lib/gofnjerta" ]
}

# Debian's valgrind, Python binding, pkg-config and compiler for C++, where they are missing.
install_tools() {
    local missing=()
    command -v pkg-config || missing+=(pkg-config)
    command -v valgrind || missing+=(valgrind)
    command -v c++ || missing+=(g++)
    /usr/bin/python3 -c 'import enet' || missing+=(python3-enet)
    [ ${#missing[@]} -eq 0 ] || install_packages "${missing[@]}"
}

layer_tests=(refusals packets calls waiting alike coder trains_sent)
compared=(packets calls waiting coder fields alike)
room=$(mktemp -d) || exit 1
trap 'kill $(jobs -p) 2> /dev/null; wait; rm -rf "$room"' EXIT
names=()
relay=
proxy=
if [ ! -r "$archive" ]; then
    echo "$archive isn't there: run 'rt lib' in crates/enet_c" > "$room/said"
    fail "$archive" "$room/said"
elif ! install_tools > "$room/said" 2>&1; then
    fail "valgrind or python3-enet" "$room/said"
elif ! build_all > "$room/said" 2>&1; then
    fail build "$room/said"
else
    grind=(valgrind -q --error-exitcode=9 --leak-check=full --errors-for-leak-kinds=definite)
    for name in border lossy admitted told record memory pool pool-debug threads; do
        try "$name" "$room/$name"
        case $name in memory | pool-debug) ;; *) try "$name-checked" "$room/$name-checked" ;; esac
    done
    try replayed replayed
    for name in "${layer_tests[@]}"; do
        try "$name" "$room/$name"
        try "$name-checked" "$room/$name-checked"
        try "$name-valgrind" "${grind[@]}" "$room/$name"
    done
    try storm "$room/storm"
    try storm-checked "$room/storm-checked"
    try storm-coder "$room/storm-checked" 200000 coder
    "$room/fuzz" draw 1 300 > "$room/drawn"
    try fuzz "$room/fuzz" play c/tests/fuzz.corpus
    try fuzz-drawn "$room/fuzz" play "$room/drawn"
    for name in patience patience-checked patience-theirs lines strangers strangers-checked newcomers newcomers-checked trains trains-checked; do
        try "$name" "$room/$name"
    done
    try fields "$room/fields"
    for name in "${compared[@]}"; do
        try "$name-theirs" "$room/$name-theirs"
        [ "$name" = fields ] || try "$name-alike" same_files "$room/$name.out" "$room/$name-theirs.out"
    done
    try fields-differ fields_differ
    try alike-shared env LD_LIBRARY_PATH="$room/made/lib/gofnjerta" "$room/alike-theirs"
    try alike-shared-alike same_files "$room/alike-shared.out" "$room/alike-theirs.out"
    # Where addresses are drawn from a wide range, ThreadSanitizer doesn't start.
    try threads-raced setarch -R "$room/threads-raced"
    try lossy-shared env LD_LIBRARY_PATH="$room/made/lib" "$room/lossy-shared"
    try border-valgrind "${grind[@]}" "$room/border"
    try memory-valgrind "${grind[@]}" "$room/memory"
    try pool-valgrind "${grind[@]}" "$room/pool"
    try shapes same_files <("$room/shapes") <(laid_out)
    try declared same_files <(declared) <(given_away)
    try shapes-c++ c++ -std=c++11 -pedantic -Wall -Wextra -Werror -Ic -fsyntax-only -x c++ c/gofnjerta_layout.h
    try layout same_files <("$room/layout-ours") <("$room/layout-theirs")
    try installed installed
    documented
    meetings
    conversations
    for name in "${names[@]}"; do
        [ ! -e "$room/$name.server" ] || tail -n 5 "$room/$name.server" >> "$room/$name.client"
        if [ -e "$room/$name.passed" ]; then passed=$((passed + 1)); else fail "$name" "$room/$name.client"; fi
    done
fi
echo "$passed passed, $failed failed"
[ "$failed" -eq 0 ] && [ "$passed" -gt 0 ]
