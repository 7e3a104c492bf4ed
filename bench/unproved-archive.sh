#!/usr/bin/env bash
# The library for C before any proof: `bench/unproved-archive.sh FILE` makes FILE, which scripts take as an ARCHIVE in the place of
# crates/enet_c/out/libenet_c.a, in some two minutes of a processor. `rt try` compiles only programs: enet_c becomes one in a copy, whose
# `main` calls each exported function (bench/exported.py). Of its LLVM module the archive is made as bench/count-unproved.sh makes a
# program. BUILT of that script and this archive are what bad-lines.sh takes as SERVER=ARCHIVE.
set -eu
file=$(realpath -m "${1:?bench/unproved-archive.sh FILE}")
cd "$(dirname "$0")/.."
. bench/unproved.sh
room=$(mktemp -d)
trap 'kill "${tried:-}" 2> /dev/null || true; rm -rf "$room"' EXIT
tar -cf - --exclude='crates/*/out' crates crates.txt HANDLES | tar -xf - -C "$room"
there=$room/crates/enet_c
mv "$there/src/lib.rt" "$there/src/main.rt"
python3 bench/exported.py main crates/enet_c/src >> "$there/src/main.rt"
sed -i 's/^enet_c staticlib:/enet_c:/' "$room/crates.txt"
take_module "$there" "$room"
text_of "$room"
python3 bench/unchecked.py crates "$kit/rattle" < "$room/module.ll" | python3 bench/exported.py module > "$room/plain.ll"
"${clang[@]}" "$room/plain.ll" -c -O2 -fPIC -ffunction-sections -fdata-sections -o "$room/enet_c.o"
rm -f "$file"
ar rcs "$file" "$room/enet_c.o"
