#!/usr/bin/env bash
# The server's package on a machine with a kernel of its own: `try-in-qemu.sh FOLDER ROOT`, as root. FOLDER is what release.sh made, ROOT the tar of
# Debian's bookworm that check-release.sh keeps in out/roots. qemu computes each instruction itself, without /dev/kvm, and counts them: each takes
# a nanosecond there, so that a busy machine hardly makes it late. The kernel is Debian's for clouds. dpkg installs the package, which starts nothing; the unit is enabled and started, and runs within its limits; two clients talk, two
# listen; a line at the control FIFO is answered, figures are told; systemctl stop ends it with Result=success, and the clients are told within a
# second; it comes back after SIGKILL of the program, and of its shell; dpkg removes it. Prints what passed after how many seconds there, what failed,
# and 'N passed, M failed'; the status is 1 where one failed. Takes 2 to 5 minutes, installs what is missing of qemu, and downloads the kernel.
cd "$(dirname "$0")/../.." || exit 1
# shellcheck disable=SC1091
. scripts/lib/clients.sh
set -e
if [ $# -ne 2 ] || [ ! -r "$2" ] || [ "$(id -u)" != 0 ]; then echo 'usage, as root: try-in-qemu.sh FOLDER ROOT' >&2; exit 1; fi
room=$(mktemp -d) && trap 'rm -rf --one-file-system "$room"' EXIT
build_clients "$room" guests told
command -v qemu-system-x86_64 > "$room/said" || install_packages --no-install-recommends qemu-system-x86 > "$room/said"
kernel=$(apt-cache depends linux-image-cloud-amd64 | awk '/Depends: linux-image/ { print $2; exit }')
(cd "$room" && apt-get -qq -o APT::Sandbox::User=root download "$kernel" && dpkg-deb --fsys-tarfile linux-image-*.deb | tar -x ./boot)
root=$room/root; mkdir "$root" && tar -xf "$2" -C "$root" --exclude=./usr/lib/gcc --exclude=./usr/share/doc && mkdir -p "$root/opt/check"
cp "$1"/enet-relay_*.deb "$room/guests" "$room/told" /usr/lib/x86_64-linux-gnu/libenet.so.7 "$root/opt/check/"
cat > "$root/opt/check/trial.sh" << 'END'
exec > /dev/ttyS0 2>&1 && stty -F /dev/ttyS0 -onlcr && cd /opt/check && export LD_LIBRARY_PATH=/opt/check
# What the words $3 say must be $2, now or within some seconds.
judge() { for _ in {1..20}; do said=$(eval "$3" 2> err | xargs); [ "$said" = "$2" ] && break; sleep 0.5; done
    if [ "$said" = "$2" ]; then echo "passed $1 after $(cut -d ' ' -f 1 /proc/uptime) seconds"; else echo "FAILED $1: '$said' where '$2' is wanted"; fi; }
state() { systemctl show enet-relay -p "$1" --value; }
has() { grep "^$1:" "/proc/$(pgrep -x enet_relay)/status" | cut -f 2; }
judge boot qemu systemd-detect-virt
dpkg -i enet-relay_*.deb > log 2>&1; status=$?
judge installed '0 disabled inactive' 'echo $status; systemctl is-enabled enet-relay; state ActiveState'
sed -i 's/^OPTIONS="/&--metrics 127.0.0.1:9100 /' /etc/default/enet-relay && systemctl enable --now enet-relay 2> log; status=$?
judge started '0 enabled active 1' 'echo $status; systemctl is-enabled enet-relay; state ActiveState; ss -Hlun sport 47001 | wc -l'
judge limits "2 1 $(printf %016d 0) yes 2147483648" 'has Seccomp; has NoNewPrivs; has CapBnd; [ $(has Uid) -lt 60000 ] || echo yes
    cat /sys/fs/cgroup/system.slice/enet-relay.service/memory.max'
./guests 47001 told > guests.out & guests=$!; ./told 47001 2 100 > told.out & told=$!
judge clients 'talking 2' 'cat guests.out; grep -c connected told.out'
echo peers > /run/enet-relay/control; judge control 'peers 4 700 600' 'journalctl -u enet-relay -o cat --no-pager | grep ^peers; stat -c %a /run/enet-relay{,/control}'
exec 3<> /dev/tcp/127.0.0.1/9100 && printf 'GET /metrics HTTP/1.1\r\nHost: a\r\n\r\n' >&3
judge figures 'enet_peers 4' 'timeout 9 cat <&3 | grep "^enet_peers " | tr -d "\r"'
begun=$(date +%s%N); systemctl stop enet-relay & stopping=$!
wait $told $guests; status=$?; heard=$((($(date +%s%N) - begun) / 1000000)); wait $stopping
judge stopped 'success 0 inactive' 'state Result; state ExecMainStatus; state ActiveState; ls /run/enet-relay'
judge "told within $heard ms" '0 2 1' 'echo $status; grep -c "ended 0" told.out; echo $((heard <= 1000))'
systemctl start enet-relay; judge started-again 1 'ss -Hlun sport 47001 | wc -l'
pkill -KILL -x enet_relay; judge killed '1 active 1' 'state NRestarts; state ActiveState; ss -Hlun sport 47001 | wc -l'
kill -KILL "$(state MainPID)"; judge shell-killed '2 active 1' 'state NRestarts; state ActiveState; ss -Hlun sport 47001 | wc -l'
dpkg --purge enet-relay > log 2>&1; status=$?
judge purged '0 inactive 0' 'echo $status; systemctl is-active enet-relay; find /etc /usr -name "enet*relay*" | wc -l; pgrep -x enet_relay'
END
printf '[Service]\nType=oneshot\nExecStart=/bin/bash /opt/check/trial.sh\nExecStopPost=/bin/systemctl --no-block poweroff\n' > "$root/etc/systemd/system/trial.service"
ln -s ../trial.service "$root/etc/systemd/system/multi-user.target.wants/" && echo 0123456789abcdef0123456789abcdef > "$root/etc/machine-id"
mke2fs -q -t ext4 -d "$root" "$room/disk" 1500M > "$room/said"
timeout --foreground 900 qemu-system-x86_64 -accel tcg -icount shift=0 -rtc clock=vm -m 1024 -nographic -nic none -no-reboot -kernel "$room"/boot/vmlinuz-* \
    -drive "file=$room/disk,format=raw,if=none,id=disk,cache=unsafe" -device nvme,drive=disk,serial=1 -append 'root=/dev/nvme0n1 rw console=ttyS0 quiet
        panic=-1 systemd.mask=serial-getty@ttyS0.service systemd.condition-needs-update=0' < /dev/null |
    tee "$room/console" | grep -a --line-buffered -E '^(passed|FAILED) ' || true
passed=$(grep -a -c '^passed ' "$room/console") || true
[ "$passed" -eq 13 ] || tail -n 20 "$room/console"
echo "$passed passed, $((13 - passed)) failed"
[ "$passed" -eq 13 ]
