#!/usr/bin/env bash
# Debian packages of the libraries for C: `package-c.sh FOLDER [ARCHIVE]` makes of them, in FOLDER, with the version in VERSION,
#   libgofnjerta0_VERSION_ARCH.deb           libgofnjerta.so.0
#   libgofnjerta-dev_VERSION_ARCH.deb        gofnjerta.h and .hpp, the table gofnjerta_layout.h, libgofnjerta.so and .a, gofnjerta_replay, and
#                                            libenet's API by its name
# and, as 1.3.17+gofnjertaVERSION,
#   libenet7-gofnjerta_.._ARCH.deb           libenet.so.7 where Debian has it, for programs that are there
#   libenet-gofnjerta-dev_.._ARCH.deb        enet/*.h, libenet.so, libenet.a and libenet.pc
# which apt takes in Debian's place (each provides that, and neither stands beside it). ARCHIVE is as in build-c.sh. It takes Debian's dpkg-deb.
# The status is 1 where something failed.
set -eu
[ $# -ge 1 ] && [ $# -le 2 ] || { echo "usage: package-c.sh FOLDER [ARCHIVE]" >&2; exit 1; }
mkdir -p "$1"
folder=$(cd "$1" && pwd)
[ $# -lt 2 ] || set -- "$1" "$(realpath "$2")"
cd "$(dirname "$0")/../.."
room=$(mktemp -d)
trap 'rm -rf "$room"' EXIT
. scripts/lib/packaging.sh
bash scripts/by-hand/build-c.sh "$room/made" "${@:2}" > "$room/said"
python3 scripts/lib/third-party.py enet_c > "$room/THIRD-PARTY.txt"
made=$room/made
for file in "$made"/lib/*.a "$made"/lib/libgofnjerta.so.0 "$made"/lib/gofnjerta/libenet.so.7 "$made"/bin/gofnjerta_replay; do strip_file "$file"; done
enet=1.3.17
in_place=$enet+gofnjerta$version

# The pkg-config file $1 of `made`, for headers in $2 of /usr/include and the library $3, as it lies below /usr.
describe() {
    sed -e 's|^prefix=.*|prefix=/usr|' -e "s|^Cflags:.*|Cflags: -I\${prefix}/include$2|" -e "s|^Libs:.*|Libs: -L/$libs -l$3|" "$made/lib/$1"
}

# The shared library $2 of `made` in the package $1, which others name by the words $3.
put_shared() {
    mkdir -p "$room/$1/$libs" "$room/$1/DEBIAN"
    install -m 644 "$made/lib/$2" "$room/$1/$libs/"
    echo "$3" > "$room/$1/DEBIAN/shlibs"
    echo 'activate-noawait ldconfig' > "$room/$1/DEBIAN/triggers"
}

put_shared libgofnjerta0 libgofnjerta.so.0 "libgofnjerta 0 libgofnjerta0 (>= $version)"
make_package libgofnjerta0 "$folder" "$version" libs "$(depends_on_libc "$made/lib/libgofnjerta.so.0")" 'proved host of ENet 1.3, without a socket' << 'END'
Multi-Arch: same

ENet is the UDP layer under many multiplayer games. This library is a host
for it: datagrams, calls and milliseconds go in, datagrams and events come
out. The host is proved; the C code around it is tested.
END

dev=$room/libgofnjerta-dev
mkdir -p "$dev/$libs/pkgconfig" "$dev/usr/bin" "$dev/usr/include/gofnjerta/enet" "$dev/usr/share/doc/libgofnjerta-dev"
install -m 755 "$made/bin/gofnjerta_replay" "$dev/usr/bin/"
install -m 644 "$made/include/gofnjerta.h" "$made/include/gofnjerta_layout.h" "$made/include/gofnjerta.hpp" "$dev/usr/include/"
install -m 644 "$made"/include/gofnjerta/enet/*.h "$dev/usr/include/gofnjerta/enet/"
install -m 644 "$made/lib/libgofnjerta.a" "$made/lib/libgofnjerta_enet.a" "$dev/$libs/"
ln -s libgofnjerta.so.0 "$dev/$libs/libgofnjerta.so"
describe pkgconfig/gofnjerta.pc '' gofnjerta > "$dev/$libs/pkgconfig/gofnjerta.pc"
describe pkgconfig/gofnjerta-enet.pc /gofnjerta gofnjerta_enet > "$dev/$libs/pkgconfig/gofnjerta-enet.pc"
install -m 644 SECURITY.md docs/{C,ERRORS,MEMORY,PROTOCOL}.md "$dev/usr/share/doc/libgofnjerta-dev/"
write_examples "$dev/usr/share/doc/libgofnjerta-dev/examples"
make_package libgofnjerta-dev "$folder" "$version" libdevel "libgofnjerta0 (= $version), $(depends_on_libc "$made/bin/gofnjerta_replay")" \
    'proved host of ENet 1.3: headers and static libraries' << 'END'
Suggests: pkg-config

What a C or C++ program is compiled with: gofnjerta.h for the host alone
(pkg-config gofnjerta), and libenet's own names over it, with a socket and a
clock (pkg-config gofnjerta-enet). It stands beside Debian's libenet-dev.
END

put_shared libenet7-gofnjerta gofnjerta/libenet.so.7 "libenet 7 libenet7 (>= $enet)"
make_package libenet7-gofnjerta "$folder" "$in_place" libs "$(depends_on_libc "$made/lib/gofnjerta/libenet.so.7")" "libenet's API over a proved host" << END
Provides: libenet7 (= $enet)
Conflicts: libenet7
Replaces: libenet7

Programs that were built for libenet 1.3.17 run on it unchanged. The host of
ENet 1.3 below is proved; the layer that has libenet's names is tested.
END

dev=$room/libenet-gofnjerta-dev
mkdir -p "$dev/$libs/pkgconfig" "$dev/usr/include/enet"
install -m 644 "$made"/include/gofnjerta/enet/*.h "$dev/usr/include/enet/"
install -m 644 "$made/lib/libgofnjerta_enet.a" "$dev/$libs/libenet.a"
ln -s libenet.so.7 "$dev/$libs/libenet.so"
describe gofnjerta/pkgconfig/libenet.pc '' enet > "$dev/$libs/pkgconfig/libenet.pc"
make_package libenet-gofnjerta-dev "$folder" "$in_place" libdevel "libenet7-gofnjerta (= $in_place)" "libenet's API over a proved host: headers" << END
Provides: libenet-dev (= $enet)
Conflicts: libenet-dev
Replaces: libenet-dev

What a program for libenet 1.3 is compiled with in the place of libenet-dev:
the same names and structures over a host that is proved.
END
