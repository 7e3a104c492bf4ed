#!/usr/bin/env bash
# The fuzzer that looks for cost (measure/dearest.c), run by hand: `fuzz-cost.sh SECONDS FOLDER` fuzzes so long with libFuzzer, over a host
# in memory, from what FOLDER has, and leaves there what reached more: edges of the host, and steps of what a datagram takes beside what it
# may. At the end it prints the inputs with the dearest datagrams, and those that took most in sum; `fuzz-cost.sh tell FILE` shows what one
# sends, of which a row of scripts/check/prices.py can be made, and `fuzz-cost.sh rows FILE` the edges of each row of a script. The host is
# that of trials/probe, compiled once more so that each edge is counted, which takes minutes of a processor; CORE=FILE keeps it, or takes it
# from there if it is there. One process, at nice 19. It takes clang and, of Debian's packages, libclang-rt-14-dev; as root it installs them
# where clang is missing.
set -eu
cd "$(dirname "$0")/../.."
. bench/unproved.sh
. scripts/lib/packages.sh
[ $# -eq 2 ] || { echo "usage: fuzz-cost.sh SECONDS FOLDER | tell FILE | rows FILE" >&2; exit 1; }
room=$(mktemp -d)
trap 'rm -rf "$room"' EXIT
command -v clang > /dev/null || install_packages clang libclang-rt-14-dev

core=${CORE:-$room/core.o}
if ! [ -s "$core" ]; then
    MODULE=$room/module.ll bash scripts/lib/build-probe.sh
    "${clang[@]}" "$room/module.ll" -c -O1 -fPIE -ffunction-sections -fdata-sections -fsanitize-coverage=trace-pc-guard -o "$core"
fi
# What the harness stands in for, and what it calls. The program's functions stay its own.
renamed=()
for names in main=probe_main read=cost_read write=cost_write clock_gettime=cost_clock __sanitizer_cov_trace_pc_guard=cost_edge \
    __sanitizer_cov_trace_pc_guard_init=cost_init; do
    renamed+=(--redefine-sym "$names")
done
objcopy "${renamed[@]}" "$core" "$room/host.o"
libraries=("$kit/c/libos_c.a" "$kit/c/liblibc_c.a" -Wl,--gc-sections)
build() {
    "$1" -std=gnu11 -O1 -g -Wall -Wextra "${@:3}" measure/dearest.c "$room/host.o" "${libraries[@]}" -o "$2"
}
build cc "$room/play"
case $1 in
tell | rows) "$room/play" "$1" "$2"; exit ;;
esac
build clang "$room/fuzz" -fsanitize=fuzzer -DFUZZER
mkdir -p "$2"
words=(-max_len=100 -timeout=1000 -rss_limit_mb=4096 -print_final_stats=1)
nice -n 19 "$room/fuzz" "${words[@]}" -max_total_time="$1" -artifact_prefix="$2/shows-" "$2" > "$room/log" 2>&1 || tail -n 20 "$room/log"
grep -E 'stat::|cov:' "$room/log" | tail -n 6
find "$2" -type f -print0 | xargs -0 -n 500 nice -n 19 "$room/play" play > "$room/played"
echo 'the dearest datagrams:'
sort -k5,5 -rn "$room/played" | head -n 10
echo 'the dearest in sum:'
sort -k13,13 -rn "$room/played" | head -n 10
