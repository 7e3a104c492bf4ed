#!/usr/bin/env bash
# The fuzzer of the layer (c/tests/fuzz.c), with network, clock and memory in memory, run by hand: `fuzz-c.sh SECONDS [ARCHIVE]` fuzzes so long
# with libFuzzer and the sanitizers, from the inputs of c/tests/fuzz.corpus and some drawn ones. Then it leaves in c/tests/fuzz.corpus the
# shortest of those that reach as much, 400 at most, which scripts/check/check-c.sh plays. ARCHIVE is as in build-c.sh. Prints how it went;
# the status is 1 where something was found, of which the input is printed. It takes clang and, of Debian's packages, libclang-rt-14-dev; as
# root it installs them where clang is missing.
set -eu
cd "$(dirname "$0")/../.."
. scripts/lib/in-memory.sh
. scripts/lib/packages.sh
[ $# -ge 1 ] || { echo "usage: fuzz-c.sh SECONDS [ARCHIVE]" >&2; exit 1; }
corpus=c/tests/fuzz.corpus
most=400
room=$(mktemp -d)
trap 'rm -rf "$room"' EXIT
command -v clang > /dev/null || install_packages clang libclang-rt-14-dev
bash scripts/by-hand/build-c.sh "$room/made" ${2:+"$2"} > "$room/said" || { cat "$room/said"; exit 1; }
checked=(-fsanitize=address,undefined -fno-sanitize-recover=all)
build_in_memory "$room/play" fuzz cc "$room/made" "${checked[@]}"
# gcc's name for what clang says otherwise: with it the layer keeps no packets at hand, so that each comes and goes.
build_in_memory "$room/fuzz" fuzz clang "$room/made" "${checked[@]}" -fsanitize=fuzzer -DFUZZER -D__SANITIZE_ADDRESS__

mkdir "$room/seeds" "$room/found" "$room/least"
"$room/play" draw "$RANDOM" 200 | cat - "$corpus" | python3 -c '
import sys
for number, line in enumerate(sys.stdin):
    open(f"{sys.argv[1]}/{number}", "wb").write(bytes.fromhex(line.strip()))' "$room/seeds"
words=(-max_len=500 -timeout=20 -rss_limit_mb=4096 -print_final_stats=1)
if ! "$room/fuzz" "${words[@]}" -max_total_time="$1" -artifact_prefix="$room/shows-" "$room/found" "$room/seeds" > "$room/log" 2>&1; then
    tail -n 80 "$room/log"
    for shown in "$room"/shows-*; do echo "the input: $(od -An -v -tx1 "$shown" | tr -d ' \n')"; done
    exit 1
fi
grep -E "stat::|cov:" "$room/log" | tail -n 6
"$room/fuzz" "${words[@]}" -merge=1 "$room/least" "$room/found" "$room/seeds" > "$room/log" 2>&1
python3 -c '
import os, sys
inputs = [open(f"{sys.argv[1]}/{name}", "rb").read() for name in os.listdir(sys.argv[1])]
for each in sorted(inputs, key=lambda i: (len(i), i))[:int(sys.argv[2])]:
    print(each.hex())' "$room/least" "$most" > "$corpus"
echo "$(wc -l < "$corpus") inputs stand in $corpus"
