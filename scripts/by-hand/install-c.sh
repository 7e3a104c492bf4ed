#!/usr/bin/env bash
# Installs the libraries for C below a prefix: `install-c.sh PREFIX [ARCHIVE]`, and takes them away: `install-c.sh --uninstall PREFIX`. What it
# builds (scripts/by-hand/build-c.sh, with ARCHIVE as there) lies where that says, and PREFIX/lib/gofnjerta/installed names each file, which
# is all that is taken away, with the folders of their own (include/gofnjerta, lib/gofnjerta) that are empty then. Where DESTDIR is set, it
# comes before PREFIX. The status is 1 where something failed.
set -eu
usage() {
    echo "usage: install-c.sh PREFIX [ARCHIVE] | install-c.sh --uninstall PREFIX" >&2
    exit 1
}
removes=false
[ "${1:-}" != --uninstall ] || { removes=true; shift; }
[ $# -ge 1 ] && [ $# -le 2 ] && [ -n "$1" ] || usage
prefix=${DESTDIR:-}$1
list=lib/gofnjerta/installed

remove() {
    local file
    while IFS= read -r file; do rm -f "$prefix/$file"; done < "$prefix/$list"
    rm "$prefix/$list"
    for file in include/gofnjerta/enet include/gofnjerta lib/gofnjerta/pkgconfig lib/gofnjerta; do
        [ ! -d "$prefix/$file" ] || rmdir --ignore-fail-on-non-empty "$prefix/$file"
    done
}

if $removes; then
    [ -r "$prefix/$list" ] || { echo "$prefix/$list isn't there" >&2; exit 1; }
    remove
    exit
fi
room=$(mktemp -d)
trap 'rm -rf "$room"' EXIT
bash "$(dirname "$0")/build-c.sh" "$room/made" "${@:2}" > "$room/said"
[ ! -r "$prefix/$list" ] || remove
cd "$room/made"
find . ! -type d -printf '%P\n' | sort > "$room/list"
while IFS= read -r file; do
    mkdir -p "$prefix/$(dirname "$file")"
    cp -P "$file" "$prefix/$file"
    [ -L "$file" ] || chmod "$([[ $file == *.so* || $file == bin/* ]] && echo 755 || echo 644)" "$prefix/$file"
done < "$room/list"
cp "$room/list" "$prefix/$list"
echo "installed: $(wc -l < "$room/list") files below $prefix; programs for libenet: PKG_CONFIG_PATH=$1/lib/gofnjerta/pkgconfig"
