#!/usr/bin/env bash
# Proves, builds and runs a program that only measures: `measure.sh 1000000 time` (orders through the submit queue), `measure.sh peer` (what
# piles up at a peer), `measure.sh hosts` (a relay's calls on its host); the head of measure/enet_bench/src/main.rt.in says more. `measure.sh
# fleets` (measure/fleet_pace) tells how long a step takes in fleets of 10, 50 and 200 clients, `measure.sh crowd CHANNELS` (measure/crowd_calls)
# how long calls of a host with 4,095 connected idle peers take, and its memory. The gate leaves these alone, since their proofs promise
# nothing: their files end in .in, which no check reads. Here one becomes a crate in a copy of the repository, over what earlier checks
# on this machine kept; where that is nothing, all below it is proved first, some ten minutes. The status is the program's.
set -eu
cd "$(dirname "$0")/../.."
program=enet_bench
case ${1:-} in
    fleets) program=fleet_pace ;;
    crowd) program=crowd_calls ;;
esac
[ "$program" = enet_bench ] || shift
room=$(mktemp -d)
trap 'rm -rf "$room"' EXIT
tar -cf - --exclude='crates/*/out' crates crates.txt HANDLES | tar -xf - -C "$room"
cp -r "measure/$program" "$room/crates/"
if [ "$program" = crowd_calls ]; then
    cp trials/probe/foreign/{call,crowd,fault}.rt.in "$room/crates/$program/src/"
    cp trials/src/check_scripts/client.rt.in "$room/crates/$program/src/check_scripts.rt.in"
fi
find "$room/crates/$program" -name '*.in' | while read -r file; do mv "$file" "${file%.in}"; done
cat "$room/crates/$program/line" >> "$room/crates.txt"
cd "$room/crates/$program"
rt run --jobs 1 -- "$@"
