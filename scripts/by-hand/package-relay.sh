#!/usr/bin/env bash
# The Debian package of the server: `package-relay.sh FOLDER [PROGRAM]` makes enet-relay_VERSION_ARCH.deb in FOLDER, with the program, its manual
# and completion, the unit for systemd, which nothing starts before somebody enables it, and what an operator reads. PROGRAM is the built
# `enet_relay`, by default the one that `rt ci`, or `rt run` in crates/enet_relay, leaves. It takes Debian's dpkg-deb and help2man. The status is 1
# where something failed.
set -eu
[ $# -ge 1 ] && [ $# -le 2 ] || { echo "usage: package-relay.sh FOLDER [PROGRAM]" >&2; exit 1; }
mkdir -p "$1"
folder=$(cd "$1" && pwd)
[ $# -lt 2 ] || set -- "$1" "$(realpath "$2")"
cd "$(dirname "$0")/../.."
room=$(mktemp -d)
trap 'rm -rf "$room"' EXIT
. scripts/lib/packaging.sh
python3 scripts/lib/third-party.py enet_relay > "$room/THIRD-PARTY.txt"
root=$room/enet-relay
doc=$root/usr/share/doc/enet-relay
mkdir -p "$root/DEBIAN" "$root/etc/default" "$doc/examples"
for place in usr/bin usr/lib/enet-relay usr/lib/systemd/system usr/share/bash-completion/completions; do mkdir -p "$root/$place"; done
install -m 755 "${2:-crates/enet_relay/out/enet_relay}" "$root/usr/bin/enet_relay"
strip_file "$root/usr/bin/enet_relay"
install -m 755 deploy/relay_run.sh "$root/usr/lib/enet-relay/"
sed 's|/usr/local|/usr|g' deploy/systemd/enet-relay.service > "$root/usr/lib/systemd/system/enet-relay.service"
install -m 644 deploy/systemd/enet-relay.default "$root/etc/default/enet-relay"
install -m 644 deploy/bash/enet_relay "$root/usr/share/bash-completion/completions/"
write_manuals "$root/usr/bin/enet_relay" "$root/usr/share/man/man1"
gzip -9n "$root"/usr/share/man/man1/*.1
install -m 644 SECURITY.md docs/{OPERATING,DEPLOYING,ERRORS,FAQ,TROUBLES,MEMORY,FIGURES,C,CAPTURES,LAB,PROTOCOL}.md "$doc/"
cp -r deploy/grafana deploy/prometheus deploy/agones/agones_run.sh deploy/agones/fleet.yaml deploy/agones/allocation.yaml "$doc/examples/"
echo /etc/default/enet-relay > "$root/DEBIAN/conffiles"
cat > "$root/DEBIAN/postinst" << 'END'
#!/bin/sh
# Nothing is started, and a server that runs goes on as it is until somebody restarts it: a restart ends its games.
set -e
if [ "$1" = configure ] && [ -d /run/systemd/system ]; then
    systemctl --system daemon-reload || true
fi
END
cat > "$root/DEBIAN/prerm" << 'END'
#!/bin/sh
# A server that runs is stopped, which tells its clients, before its program goes.
set -e
if [ "$1" = remove ] && [ -d /run/systemd/system ]; then
    systemctl --no-reload disable --now enet-relay.service || true
fi
END
cat > "$root/DEBIAN/postrm" << 'END'
#!/bin/sh
set -e
if [ "$1" = remove ] && [ -d /run/systemd/system ]; then
    systemctl --system daemon-reload || true
fi
END
chmod 755 "$root/DEBIAN/postinst" "$root/DEBIAN/prerm" "$root/DEBIAN/postrm"
make_package enet-relay "$folder" "$version" net "$(depends_on_libc "$root/usr/bin/enet_relay")" 'server for ENet 1.3 that relays chat, and a lab for its wire' << 'END'
Suggests: systemd

Clients on any ENet 1.3 connect to it: what one sends on channel 0 comes to
all others reliably, on channel 1 unreliably. It has a lab with two hosts and
a network that does what lines say, and draws what went over a line out of a
capture. The host is proved: no datagram crashes or hangs it.
END
