#!/usr/bin/env bash
# The host as a library for C, and libenet's API over it: `build-c.sh FOLDER [ARCHIVE]` makes of FOLDER, as /usr/local,
#   include/gofnjerta.h   include/gofnjerta_layout.h   include/gofnjerta.hpp   bin/gofnjerta_replay
#   lib/libgofnjerta.a   lib/libgofnjerta.so.0   lib/libgofnjerta.so   lib/pkgconfig/gofnjerta.pc
# and, for programs that are written for libenet,
#   include/gofnjerta/enet/*.h   lib/libgofnjerta_enet.a   lib/gofnjerta/libenet.so.7   lib/pkgconfig/gofnjerta-enet.pc
#   lib/gofnjerta/libenet.so   lib/gofnjerta/pkgconfig/libenet.pc
# all of which may be moved together.
# ARCHIVE is the proved part, crates/enet_c/out/libenet_c.a; where it isn't given, `rt lib` proves and builds it first. A program is
# then compiled by
#   cc program.c $(PKG_CONFIG_PATH=FOLDER/lib/pkgconfig pkg-config --cflags --libs gofnjerta)
# and runs with LD_LIBRARY_PATH=FOLDER/lib, or is linked with FOLDER/lib/libgofnjerta.a, which needs nothing beside the C library. A
# program for libenet is compiled with gofnjerta-enet in place of gofnjerta, or, where it asks pkg-config for libenet, with
# PKG_CONFIG_PATH=FOLDER/lib/gofnjerta/pkgconfig; one that is there already, or was compiled so, runs on
# LD_LIBRARY_PATH=FOLDER/lib/gofnjerta as it is. The compiler is CC (cc), and CFLAGS comes to its flags. What a debugger is told of the sources
# is their place in the repository, which is called /usr/src/gofnjerta. Says at the end how to link; the status is 1 where something failed.
set -eu
[ $# -ge 1 ] || { echo "usage: build-c.sh FOLDER [ARCHIVE]" >&2; exit 1; }
mkdir -p "$1/bin" "$1/include/gofnjerta/enet" "$1/lib/pkgconfig" "$1/lib/gofnjerta/pkgconfig"
folder=$(cd "$1" && pwd)
[ $# -lt 2 ] || archive=$(realpath "$2")
cd "$(dirname "$0")/../.."
kit=$(dirname "$(rt doc)")
if [ $# -lt 2 ]; then
    (cd crates/enet_c && rt lib --jobs 1)
    archive=$PWD/crates/enet_c/out/libenet_c.a
fi
room=$(mktemp -d)
trap 'rm -rf "$room"' EXIT
read -ra given <<< "${CFLAGS:-}"
compile() {
    "${CC:-cc}" -std=gnu11 -O2 -g -fPIC -Wall -Wextra "-ffile-prefix-map=$PWD=/usr/src/gofnjerta" ${given[@]+"${given[@]}"} "$@"
}

# The kit's part that calls malloc goes into the library, so that nothing else is linked; where libenet's API is, c/pool.c in its place.
compile -c c/gofnjerta.c -o "$room/gofnjerta.o"
mkdir "$room/parts" "$room/memory"
(cd "$room/parts" && ar x "$archive")
(cd "$room/memory" && ar x "$kit/c/liblibc_c.a")
rm -f "$folder/lib/libgofnjerta.a"
ar rcs "$folder/lib/libgofnjerta.a" "$room/gofnjerta.o" "$room"/parts/*.o "$room"/memory/*.o
compile -shared -Wl,-soname,libgofnjerta.so.0 -Wl,--version-script=c/gofnjerta.map -o "$folder/lib/libgofnjerta.so.0" "$room/gofnjerta.o" \
    "$room"/parts/*.o "$room"/memory/*.o
ln -sf libgofnjerta.so.0 "$folder/lib/libgofnjerta.so"
compile c/replay.c -o "$folder/bin/gofnjerta_replay" "$folder/lib/libgofnjerta.a"
# The layer's files become one object, out of which only libenet's names are seen.
mkdir "$room/layer"
for source in c/enet/*.c; do
    compile -Ic -c "$source" -o "$room/layer/$(basename "$source" .c).o"
done
"${CC:-cc}" -r -nostdlib -o "$room/enet.o" "$room"/layer/*.o
objcopy --localize-hidden "$room/enet.o"
compile -c c/pool.c -o "$room/pool.o"
rm -f "$folder/lib/libgofnjerta_enet.a"
ar rcs "$folder/lib/libgofnjerta_enet.a" "$room/enet.o" "$room/gofnjerta.o" "$room/pool.o" "$room"/parts/*.o
# It stays loaded, since a thread that ends later calls it (c/pool.c).
compile -shared -Wl,-soname,libenet.so.7 -Wl,-z,nodelete -Wl,--version-script=c/enet/enet.map -o "$folder/lib/gofnjerta/libenet.so.7" \
    "$room/enet.o" "$room/gofnjerta.o" "$room/pool.o" "$room"/parts/*.o
cp c/gofnjerta.h c/gofnjerta_layout.h bindings/cpp/gofnjerta.hpp "$folder/include/"
ln -sf libenet.so.7 "$folder/lib/gofnjerta/libenet.so"
for header in c/enet/*.h; do
    [ "$header" = c/enet/layer.h ] || cp "$header" "$folder/include/gofnjerta/enet/"
done

# A pkg-config file in the folder $1 of lib, from which FOLDER is $prefix, of the version $version: its name, what it is, the folder of its
# headers, that of its library and the library.
describe() {
    cat > "$folder/lib/$1/$2.pc" << END
prefix=\${pcfiledir}/$prefix
Name: $2
Description: $3
Version: $version
Cflags: -I\${prefix}/$4
Libs: -L\${prefix}/$5 -l$6
END
}
prefix=../..
version=$(<VERSION)
describe pkgconfig gofnjerta 'a proved host of ENet 1.3 without a socket' include lib gofnjerta
describe pkgconfig gofnjerta-enet 'the API of libenet 1.3 over a proved host' include/gofnjerta lib gofnjerta_enet
prefix=../../..
version=1.3.17
describe gofnjerta/pkgconfig libenet 'the API of libenet 1.3 over a proved host' include/gofnjerta lib/gofnjerta enet
echo "built: cc program.c -I$folder/include -L$folder/lib -lgofnjerta, and run it with LD_LIBRARY_PATH=$folder/lib"
echo "for libenet's API: cc program.c -I$folder/include/gofnjerta $folder/lib/libgofnjerta_enet.a"
