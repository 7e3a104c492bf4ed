#!/usr/bin/env bash
# The proved part of the library for C, crates/enet_c/out/libenet_c.a, over the libraries that `rt ci` has left in the crates' folders,
# which scripts/test.sh clears before (`rt ci` puts those back that stood there). It proves `enet_c` alone, within some minutes of one
# processor, where `rt lib` would prove all below it once more. It leans on how the kit's `rt` calls its compiler.
set -eu
cd "$(dirname "$0")/../.."
kit=$(dirname "$(rt doc)")
crates=$PWD/crates
uses=$(sed -n 's/^enet_c staticlib: *//p' crates.txt)
words=(--extern "std=$kit/rlibs/std.rlib" -L "dependency=$kit/rlibs")
for name in $uses; do
    if [ -d "crates/$name" ]; then
        words+=(--extern "$name=$crates/$name/out/rlib/$name.rlib")
    else
        words+=(--extern "$name=$kit/rlibs/$name.rlib")
    fi
done
for library in "$crates"/*/out/rlib; do
    words+=(-L "dependency=$library")
done
cd crates/enet_c
mkdir -p out
exec "$kit/bin/rattle" build --crate-name enet_c src/lib.rt "${words[@]}" --antt-project "$kit/rattle/logic/antt-project.json" \
    --logic-built "$kit/logic_built" --links enet_c= --crate-type staticlib --jobs 1 --toolchain "$kit/toolchain" -o out/libenet_c.a
