#!/usr/bin/env bash
# Builds out/probe, the program of trials/probe, for check-memory.sh, check-strangers.sh, check-prices.sh and check-rows.sh: it becomes a crate in a
# copy of the repository, `rt try` compiles it, and the system's linker links it. It isn't proved, since its proofs would promise nothing; it
# stops at each overflow and each index out of range. Takes a minute of a processor. MODULE=FILE also leaves its LLVM module there, as text.
set -eu
cd "$(dirname "$0")/../.."
. bench/unproved.sh
room=$(mktemp -d)
trap 'kill "${tried:-}" 2> /dev/null || true; rm -rf "$room"' EXIT
there=$room/crates/probe
mkdir -p "$there/src" out
tar -cf - --exclude='crates/*/out' crates crates.txt HANDLES | tar -xf - -C "$room"
cp -r trials/probe/* trials/src/check_scripts trials/src/check_scripts.rt.in "$there/src"
rm "$there/src/line"
find "$there/src" -name '*.in' | while IFS= read -r file; do mv "$file" "${file%.in}"; done
cat trials/probe/line >> "$room/crates.txt"
take_module "$there" "$room"
text_of "$room"
# What serves the address sanitizer goes, which counts no growth that a program loaded with it counts.
sed -i 's/ sanitize_address//' "$room/module.ll"
compile "$room/module.ll" "$room/program"
[ -z "${MODULE:-}" ] || cp "$room/module.ll" "$MODULE"
mv "$room/program" out/probe
