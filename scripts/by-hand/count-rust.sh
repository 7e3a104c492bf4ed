#!/usr/bin/env bash
# What the crate for Rust costs beside the library for C: `count-rust.sh [FOLDER]`, a minute of a processor. Counts the instructions and the
# allocations of a game's round, once in C (bindings/rust/benches/round.c) and once in Rust (round.rs): the same calls over the same
# datagrams, by the same library. FOLDER is one that scripts/by-hand/build-c.sh made; if none is given, it is made over
# crates/enet_c/out/libenet_c.a. The compiler is that of the cargo that stands first in PATH. It takes valgrind, gcc and cargo, and fetches
# nothing.
# For each row it prints the instructions of a round in C and in Rust, the quotient, and the allocations of a round in both. The status is 1
# if the programs print different lines, or Rust takes over 1.03 times the instructions, or more allocations.
set -eu
cd "$(dirname "$0")/../.."
room=$(mktemp -d)
trap 'rm -rf "$room"' EXIT
made=${1:+$(realpath "$1")}
if [ -z "$made" ]; then
    made=$room/made
    bash scripts/by-hand/build-c.sh "$made" crates/enet_c/out/libenet_c.a > "$room/said" 2>&1 || { cat "$room/said" >&2; exit 1; }
fi
cc -std=gnu11 -O2 -Wall -Wextra "-I$made/include" bindings/rust/benches/round.c "$made/lib/libgofnjerta.a" -o "$room/c"
export GOFNJERTA_DIR=$made CARGO_TARGET_DIR=$room/target CARGO_HOME=$room/cargo CARGO_NET_OFFLINE=true
(cd bindings/rust && cargo bench --no-run --bench round) > "$room/said" 2>&1 || { cat "$room/said" >&2; exit 1; }
for built in "$room"/target/release/deps/round-*; do
    [[ $built == *.d ]] || cp "$built" "$room/rust"
done

# How many instructions, and how many allocations, the program $1 takes for $2 rounds of the words behind.
count() {
    valgrind --tool=callgrind --callgrind-out-file=/dev/null "$room/$1" "${@:3}" "$2" 2> "$room/instructions" > "$room/$1.out"
    valgrind --tool=memcheck "$room/$1" "${@:3}" "$2" 2> "$room/allocations" > /dev/null
    awk '/Collected/ { counted = $NF } /total heap usage/ { gsub(",", ""); allocated = $5 } END { print counted, allocated }' \
        "$room/instructions" "$room/allocations"
}

echo '| Round | Instructions in C | In Rust | Quotient | Allocations in C | In Rust |'
echo '|---|---|---|---|---|---|'
status=0
while read -r shape clients packets bytes flags; do
    for program in c rust; do
        read -r first first_allocated <<< "$(count $program 20 "$shape" "$clients" "$packets" "$bytes" "$flags")"
        read -r last last_allocated <<< "$(count $program 60 "$shape" "$clients" "$packets" "$bytes" "$flags")"
        echo $(((last - first) / 40)) $(((last_allocated - first_allocated) / 40))
    done > "$room/counts"
    cmp "$room/c.out" "$room/rust.out" || status=1
    kind=unreliable
    [ "$flags" != 1 ] || kind=reliable
    paste -s -d ' ' "$room/counts" | awk -v row="$shape, $clients clients, $packets $kind of $bytes bytes" '
        { printf "| %s | %d | %d | %.3f | %d | %d |\n", row, $1, $3, $3 / $1, $2, $4; exit $3 > 1.03 * $1 || $4 > $2 }' || status=1
done << 'END'
echo 8 4 32 1
echo 8 4 32 8
echo 8 4 1000 1
echo 8 4 1000 8
relay 8 1 32 1
relay 8 1 1000 8
relay 32 1 100 1
END
exit $status
