#!/usr/bin/env bash
# A release, tried where there is no kit: `check-release.sh FOLDER [SUITE..]`, as root. FOLDER is what release.sh made, a SUITE one of Debian's:
# bookworm and trixie where none is given. Of each suite mmdebstrap makes a root with a C compiler, pkg-config, Python and systemd, from the
# mirror that MIRROR names (http://deb.debian.org/debian), and out/roots keeps it. In a copy of it
# - install: the server's package and those of libgofnjerta are installed by apt-get, ask nothing, and enable and start nothing;
# - server: enet_relay serves four clients of the reference library (clients/guests.c), which are told when it ends; it says its lab's answers,
#   its manual lies there and bash completes its words;
# - c, cpp, tutorial, python: the example of docs/C.md, as the package has it, talks to itself compiled by pkg-config's words, a C++ program
#   opens a host, libenet's tutorial (c/tests/tutorial.c) is compiled for libenet's names and talks to itself, and the example in Python talks
#   to the one in C;
# - archive: the tutorial built for libenet runs on the archive's libenet.so.7, and the archive's program says its help;
# - readme: each row of the table below `| You want | Install | Run |` in README (or the file that TABLE names) does as it says, in a root of its own
#   with nothing but apt: what stands in back-quotes under Install ends with status 0 ('the same' is what the row above has), and so does what
#   stands under Run, unless it is there to serve; then it listens, and still does six seconds later. It is told how many seconds lie between
#   the beginning of Install and that. A row with systemctl comes in the booted system, below;
# - cube2: Debian's cube2-server, installed over libenet7-gofnjerta, serves clients of its game (c/games/cube.c);
# - systemd: in a system that systemd-nspawn boots the unit is enabled and started, two clients connect, figures are told, a line at the control
#   FIFO is answered, systemctl stop ends it with Result=success and the clients are told within a second, and it comes back after each of
#   several SIGKILLs;
# - image: buildah makes the image of deploy/container out of the archive, over a part of the root, not debian:bookworm-slim; podman runs it, and
#   podman stop ends it with status 0 and two clients are told within two seconds;
# - removal: apt-get purges all five and leaves no file of theirs.
# Once, not in a root: lintian finds no error, and the checksums are right. What can't run here is told as 'SKIPPED name: why'. Prints seconds
# beside what passed, what failed, and as last line 'N passed, M failed, K skipped'; the status is 1 where one failed. It takes some minutes.
# Installs, as root, what is missing of mmdebstrap, systemd-container, lintian, buildah, podman, runc and what the clients take.
cd "$(dirname "$0")/../.." || exit 1
. scripts/lib/clients.sh
. scripts/lib/tally.sh
skipped=0
[ $# -ge 1 ] && [ -r "$1/SHA256SUMS" ] || { echo "usage: check-release.sh FOLDER [SUITE..]" >&2; exit 1; }
[ "$(id -u)" = 0 ] || { echo 'check-release.sh makes roots, which only root may' >&2; exit 1; }
folder=$(realpath "$1")
shift
[ $# -gt 0 ] || set -- bookworm trixie
table=$(realpath "${TABLE:-README.md}")
room=$(mktemp -d) || exit 1
export room
trap 'rm -rf --one-file-system "$room"' EXIT

skip() {
    echo "SKIPPED $1: $2"
    skipped=$((skipped + 1))
}

# Runs the rest of the words under the name $1, and counts whether they ended well; what they said is in $room/said.
try() {
    local name=$1 begun=$SECONDS
    shift
    if "$@" > "$room/said" 2>&1; then
        passed=$((passed + 1))
        echo "passed $name after $((SECONDS - begun)) seconds"
    else
        fail "$name" "$(first_error "$room/said" | cut -c 1-300)"
    fi
}

install_tools() {
    local missing=()
    command -v mmdebstrap > "$room/found" || missing+=(mmdebstrap debian-archive-keyring)
    command -v systemd-nspawn > "$room/found" || missing+=(systemd-container)
    command -v lintian > "$room/found" || missing+=(lintian)
    command -v buildah > "$room/found" || missing+=(buildah podman runc)
    [ ${#missing[@]} -eq 0 ] || install_packages "${missing[@]}" > "$room/install" 2>&1
}

# Makes the root of the suite $1, where it isn't kept, and a copy of it in `root`, with the release in /root/release and, in /opt/check, the
# clients with the reference library that they were built for.
unpack() {
    local kept=out/roots/$1.tar
    root=$room/$1
    if [ ! -s "$kept" ]; then
        mkdir -p out/roots
        mmdebstrap --quiet --variant=minbase --include=systemd,systemd-sysv,dbus,iproute2,procps,gcc,g++,libc6-dev,pkg-config,python3 "$1" \
            "out/roots/new-$1.tar" "${MIRROR:-http://deb.debian.org/debian}" && mv "out/roots/new-$1.tar" "$kept" || return 1
    fi
    mkdir "$root" && tar -xf "$kept" -C "$root" && mkdir -p "$root/root/release" "$root/root/work" "$root/opt/check" || return 1
    cp "$folder"/*.deb "$folder"/*.tar.gz "$root/root/release/"
    cp "$room/guests" "$room/told" "$room/cube" "$room/tutorial" /usr/lib/x86_64-linux-gnu/libenet.so.7 c/tests/tutorial.c "$root/opt/check/"
    cp /etc/resolv.conf "$root/etc/resolv.conf"
}

# Runs the shell's words $1 in the root, in processes of its own, with the network of this machine.
inside() {
    timeout 300 unshare --mount --pid --fork --kill-child sh -c 'mount -t proc proc "$0/proc" && exec chroot "$0" env -i HOME=/root LC_ALL=C.UTF-8 \
        DEBIAN_FRONTEND=noninteractive PATH=/usr/local/sbin:/usr/local/bin:/usr/sbin:/usr/bin:/sbin:/bin bash -ec "$1"' "$root" "$1" < /dev/null
}

# The same with a network of its own, which has 127.0.0.1 alone. `bound PORT` there waits until somebody listens at the UDP port.
apart() {
    unshare --net bash -c 'ip link set lo up; root=$0; eval "$2"; inside "$1"' "$root" "bound() { for _ in {1..200}; do
        grep -q \":\$(printf %04X \"\$1\") \" /proc/net/udp && return; sleep 0.1; done; return 1; }
        $1" "$(declare -f inside)"
}

installs() {
    inside 'cd /root/release && apt-get update -q && apt-get install -q -y ./enet-relay_*.deb ./libgofnjerta0_*.deb ./libgofnjerta-dev_*.deb
        test -z "$(find /etc/systemd/system -name "enet-relay*")"
        test -r /etc/default/enet-relay && dpkg --verify enet-relay libgofnjerta0 libgofnjerta-dev'
}

server() {
    apart 'cd /root/work
        [[ $(enet_relay --version) == "enet_relay $(dpkg-query -W -f "\${Version}" enet-relay) (rattle-kit-"*")" ]]
        enet_relay serve --help | grep -q -- --port && test -r /usr/share/man/man1/enet_relay-serve.1.gz
        printf "pair 2\ntick A 100\n" | enet_relay lab | grep -q "^ok"
        . /usr/share/bash-completion/completions/enet_relay && complete -p enet_relay
        /usr/lib/enet-relay/relay_run.sh enet_relay serve --port 47001 --forever --log > out 2> log & relay=$!
        bound 47001
        for n in 1 2; do LD_LIBRARY_PATH=/opt/check timeout 60 /opt/check/guests 47001 told > guests$n & guests[n]=$!; done
        for n in 1 2; do for _ in {1..100}; do ! grep -q talking guests$n || break; sleep 0.1; done; done
        kill -TERM $relay
        wait $relay && wait ${guests[1]} && wait ${guests[2]} && grep -q stopping out'
}

c() {
    apart 'cd /root/work && cp /usr/share/doc/libgofnjerta-dev/examples/echo.c .
        cc echo.c $(pkg-config --cflags --libs gofnjerta) -o echo && ldd ./echo | grep -q libgofnjerta.so.0
        ./echo & bound 7777 && timeout 20 ./echo 127.0.0.1 | grep -q "got hello"'
}

cpp() {
    apart 'cd /root/work && cat > open.cpp << END
#include <enet/enet.h>
#include <gofnjerta.h>
int main() {
    gofnjerta_host host = {};
    gofnjerta_config config = gofnjerta_standard(32, 2);
    if (gofnjerta_open(&host, &config) != 0) return 1;
    gofnjerta_close(&host);
    ENetHost *other = enet_host_create(nullptr, 1, 2, 0, 0);
    if (other == nullptr) return 2;
    enet_host_destroy(other);
    return 0;
}
END
        c++ -Wall -Wextra -Werror open.cpp $(pkg-config --cflags --libs gofnjerta gofnjerta-enet) -o open && ./open'
}

tutorial() {
    apart 'cd /root/work && cp /opt/check/tutorial.c your_server.c
        cc your_server.c $(pkg-config --cflags --libs gofnjerta-enet) -o tutorial
        ./tutorial serve 7777 & relay=$!
        bound 7777 && ./tutorial visit 7777 && wait $relay
        ./tutorial serve 7778 & relay=$!
        bound 7778 && LD_LIBRARY_PATH=/opt/check /opt/check/tutorial visit 7778 && wait $relay'
}

python() {
    apart 'cd /root/work && ./echo & bound 7777
        timeout 20 python3 /usr/share/doc/libgofnjerta-dev/examples/echo.py libgofnjerta.so.0 127.0.0.1 | grep -q "got hello"'
}

archive() {
    apart 'cd /root/work && tar -xf /root/release/gofnjerta-*.tar.gz && there=$(echo gofnjerta-*/) && $there/bin/enet_relay --help | grep -q Usage
        export LD_LIBRARY_PATH=$there/lib/gofnjerta
        ldd /opt/check/tutorial | grep -q "$there"
        /opt/check/tutorial serve 7777 & relay=$!
        bound 7777 && LD_LIBRARY_PATH=/opt/check /opt/check/tutorial visit 7777 && wait $relay'
}

# What stands in back-quotes in the column $2 of the table's row $1, a line for each.
cell() {
    cut -d '|' -f $(($2 + 1)) <<< "${1//\\|/\\}" | grep -o '`[^`]*`' | tr -d '`'
}

# Makes a root of the suite $1 with nothing but apt, as a new machine has it, in $room/bare; out/roots keeps it without the lists of packages.
unpack_bare() {
    local kept=out/roots/$1-bare.tar root=$room/bare
    [ -s "$kept" ] || { mmdebstrap --quiet --variant=minbase "$1" "out/roots/new-$1.tar" "${MIRROR:-http://deb.debian.org/debian}" &&
        mv "out/roots/new-$1.tar" "$kept"; } || return 1
    rm -rf --one-file-system "$root" && mkdir "$root" && tar -xf "$kept" -C "$root" && mkdir -p "$root/root/release" "$root/opt/check" || return 1
    cp "$folder"/*.deb "$folder"/*.tar.gz "$folder"/*.whl "$root/root/release/"
    cp "$room/tutorial" /usr/lib/x86_64-linux-gnu/libenet.so.7 "$root/opt/check/"
    cp /etc/resolv.conf "$root/etc/resolv.conf"
    # Nobody is there to answer apt.
    echo 'APT::Get::Assume-Yes "true";' > "$root/etc/apt/apt.conf.d/99yes"
    inside 'apt-get update -q'
}

# What the rows speak of: a server that was built for libenet, the source of one, which is C and C++, and a capture.
bring_games() {
    printf '#!/bin/sh\nexec /opt/check/tutorial serve 7777\n' > "$1/your_server"
    chmod 755 "$1/your_server"
    sed 's/int main(.*/int main(void) { int argc = 3; const char *argv[] = {"t", "serve", "7777", 0};/; s/= "Client/= (void *)"Client/
        s/strcmp(event.peer->data/strcmp((char *)event.peer->data/' c/tests/tutorial.c > "$1/your_server.cpp"
    python3 scripts/lib/timeline.py capture trials/captured/data.txt "$1/game.pcap"
}

# Whether the words $2, and then $1, do what a row says, in a root of its own. Tells the seconds that this took.
row() {
    local root=$room/row begun
    rm -rf --one-file-system "$root" && cp -a "$room/bare" "$root" && bring_games "$root/root/release" || return 1
    begun=$EPOCHREALTIME
    inside "cd /root/release && sudo() { \"\$@\"; } && $2" && apart "cd /root/release && sudo() { \"\$@\"; } && { $1; } & it=\$!
        for _ in {1..600}; do
            if [ \$(wc -l < /proc/net/udp) -gt 1 ] || ! kill -0 \$it 2> /dev/null; then break; fi
            sleep 0.1
        done
        echo \$EPOCHREALTIME > /root/reached
        until=\$((SECONDS + 6))
        while [ \$SECONDS -lt \$until ]; do kill -0 \$it 2> /dev/null || { wait \$it; exit; }; sleep 0.1; done
        [ \$(wc -l < /proc/net/udp) -gt 1 ]" && awk -v begun="$begun" '{ printf "%.1f\n", $1 - begun }' "$root/root/reached" > "$room/took"
}

# The rows of the table.
readme() {
    local row number=0 install='' run
    grep -q '^| You want | Install | Run |' "$table" || { skip "$1-readme" "$table has no table '| You want | Install | Run |'"; return; }
    unpack_bare "$1" > "$room/said" 2>&1 || { skip "$1-readme" "no root: $(tail -n 2 "$room/said" | tr '\n' ' ')"; return; }
    awk '/^\| You want \| Install \| Run \|/ { on = 1; next } on && !/^\|/ { exit } on && !/^\|-/' "$table" > "$room/rows"
    while IFS= read -r row; do
        number=$((number + 1))
        [[ $(cut -d '|' -f 3 <<< "$row") == ' the same ' ]] || install=$(cell "$row" 2)
        run=$(cell "$row" 3)
        # A row that wants a running systemd comes in the system that is booted.
        if [[ $run == *systemctl* ]]; then
            echo "sudo() { \"\$@\"; }; $run" > "$root/root/row"
        elif row "$run" "$install" > "$room/said" 2>&1; then
            passed=$((passed + 1))
            echo "passed $1-readme-$number, $(<"$room/took") seconds from the beginning of its installation to:" $run
        else
            fail "$1-readme-$number" "$(tail -n 15 "$room/said" | cut -c 1-300)"
        fi
    done < "$room/rows"
    rm -rf --one-file-system "$room/row" "$room/bare"
}

cube2() {
    inside 'cd /root/release && apt-get install -q -y ./libenet7-gofnjerta_*.deb cube2-server && dpkg-query -S "$(realpath /usr/lib/x86_64-linux-gnu/libenet.so.7)" |
        grep -q gofnjerta'
    apart 'mkdir -p /root/cube && cd /root/cube && printf "%s\n" "maxclients 8" "maxdupclients 2" "updatemaster 0" "serverport 28785" > server-init.cfg
        /usr/lib/cube2/cube2_server -q/root/cube > said < /dev/null & bound 28785
        LD_LIBRARY_PATH=/opt/check timeout 60 /opt/check/cube 28785'
}

# What the booted system does: a line 'ok NAME' or 'not NAME: why' for each thing, in /root/booted.
write_trial() {
    cat > "$root/root/trial.sh" << 'END'
exec > /root/booted 2>&1
judge() { if [ "$2" = "$3" ]; then echo "ok $1"; else echo "not $1: '$2' where '$3' is wanted"; fi; }
state() { systemctl show enet-relay -p "$1" --value; }
now() { echo $(($(date +%s%N) / 1000000)); }
# Until one server runs, and not the one with the process number $1.
until_up() { local here; for _ in $(seq 100); do here=$(pgrep -x enet_relay); [[ $here =~ ^[0-9]+$ ]] && [ "$here" != "$1" ] && return; sleep 0.1; done; }
ask() { exec 3<> /dev/tcp/127.0.0.1/9100 && printf 'GET %s HTTP/1.1\r\nHost: a\r\n\r\n' "$1" >&3 && timeout 5 cat <&3; exec 3>&-; }
export LD_LIBRARY_PATH=/opt/check
judge disabled "$(systemctl is-enabled enet-relay) $(systemctl is-active enet-relay)" 'disabled inactive'
sed -i 's/^OPTIONS="/&--metrics 127.0.0.1:9100 /' /etc/default/enet-relay
begun=$(now)
if [ -s /root/row ]; then bash -e /root/row; else systemctl enable --now enet-relay; fi
judge enabled "$? $(systemctl is-enabled enet-relay)" '0 enabled'
until_up 0
up=$(($(now) - begun))
sleep 1
judge started "$(state ActiveState)" active
/opt/check/told 47001 2 40 > /root/told & told=$!
for _ in $(seq 100); do [ "$(grep -c connected /root/told)" = 2 ] && break; sleep 0.1; done
echo peers > /run/enet-relay/control
sleep 1
judge control "$(journalctl -u enet-relay -o cat --no-pager | grep -c '^peers 2$')" 1
judge only-root "$(stat -c '%a' /run/enet-relay/control) $(stat -c '%a' /run/enet-relay)" '600 700'
sleep 1
judge figures "$(ask /metrics | grep '^enet_peers ' | tr -d '\r')" 'enet_peers 2'
judge healthy "$(ask /healthz | head -n 1 | cut -d ' ' -f 2)" 200
begun=$(now)
systemctl stop enet-relay & stopping=$!
wait $told
heard=$(($(now) - begun))
wait $stopping
stopped=$(($(now) - begun))
judge told "$(grep -c 'ended 0' /root/told)" 2
judge told-within-a-second "$([ $heard -le 1000 ] && echo yes || echo "$heard ms")" yes
judge stopped "$(state Result) $(state ExecMainStatus) $(state ActiveState)" 'success 0 inactive'
judge stopped-soon "$([ $stopped -le 3000 ] && echo yes || echo "$stopped ms")" yes
judge no-fifo "$(ls /run/enet-relay/control 2>/dev/null)" ''
systemctl start enet-relay
until_up 0
for n in 1 2 3 4 5 6 7; do
    old=$(pgrep -x enet_relay)
    if [ $((n % 2)) = 0 ]; then kill -KILL "$(state MainPID)"; else kill -KILL "$old"; fi
    until_up "$old"
done
sleep 0.5
judge restarted "$(state ActiveState) $(state NRestarts)" 'active 7'
judge no-core "$(find / -xdev -name 'core*' -path '*relay*' 2> /dev/null | head -n 1)" ''
apt-get purge -q -y enet-relay > /root/purged 2>&1
judge purged "$? $(systemctl is-active enet-relay) $(pgrep -cx enet_relay) $(find /etc -name '*enet-relay*' | wc -l)" '0 inactive 0 0'
echo "ok told after $heard ms, stopped after $stopped ms, up $up ms after it was enabled"
echo done
END
    cat > "$root/etc/systemd/system/trial.service" << 'END'
[Unit]
After=basic.target
[Service]
Type=oneshot
ExecStart=/bin/bash /root/trial.sh
ExecStopPost=/bin/systemctl --no-block poweroff
TimeoutStartSec=150
END
    ln -sf ../trial.service "$root/etc/systemd/system/multi-user.target.wants/trial.service"
    # With an id the system isn't at its first boot, at which Debian's systemd enables each unit that it finds.
    echo 0123456789abcdef0123456789abcdef > "$root/etc/machine-id"
}

booted() {
    local line begun=$SECONDS
    write_trial
    timeout 240 systemd-nspawn -q -b --register=no --keep-unit --private-network -D "$root" > "$room/boot" 2>&1 < /dev/null
    if [ ! -s "$root/root/booted" ]; then
        skip "$1-systemd" "systemd-nspawn boots nothing here: $(tail -n 3 "$room/boot" | tr '\n' ' ')"
        return
    fi
    while IFS= read -r line; do
        case $line in
            'ok told after'*) echo "passed $1-systemd, ${line#ok } (booted for $((SECONDS - begun)) seconds)" ;;
            'ok '*) passed=$((passed + 1)) ;;
            'not '*) fail "$1-systemd" "${line#not }" ;;
        esac
    done < "$root/root/booted"
    grep -q '^done$' "$root/root/booted" || fail "$1-systemd" "it ended early: $(tail -n 3 "$root/root/booted")"
}

# A base for the image: what a shell and the wrapper take of the root, and Debian's users.
build_base() {
    local base path
    mkdir "$room/base" && (cd "$root" && for path in bin lib lib64 sbin usr/lib64 usr/bin/{sh,dash,mkfifo,mktemp,rm,true} usr/lib/x86_64-linux-gnu/{libc,libm,ld-linux-x86-64,libselinux,libpcre2-8}.so.* \
        etc/passwd etc/group; do [ ! -e "$path" ] || cp -a --parents "$path" "$room/base/"; done) && mkdir -m 1777 "$room/base/tmp" || return 1
    base=$(buildah "${store[@]}" from scratch) && buildah "${store[@]}" copy -q "$base" "$room/base" / > "$room/added" &&
        buildah "${store[@]}" commit -q "$base" gofnjerta-base > "$room/added" || return 1
    podman "${store[@]}" "${runs[@]}" run --rm --ulimit nofile=1024:1024 --ulimit nproc=1024:1024 --network none localhost/gofnjerta-base true
}

image() {
    buildah "${store[@]}" bud -q --isolation chroot --build-arg BASE=localhost/gofnjerta-base --build-arg PROGRAM=bin/enet_relay \
        -f "$there/deploy/container/Containerfile" -t gofnjerta-relay "$there" > "$room/added" || return 1
    unshare --net bash -ec 'ip link set lo up
        podman "$@" run -d --name relay --ulimit nofile=1024:1024 --ulimit nproc=1024:1024 --network host --log-driver k8s-file localhost/gofnjerta-relay > "$room/relay"
        "$room/told" 47001 2 40 > "$room/heard" & told=$!
        for _ in {1..200}; do [ "$(grep -c connected "$room/heard")" != 2 ] || break; sleep 0.1; done
        begun=$(date +%s%N)
        podman "$@" stop -t 10 relay > "$room/relay" & stopping=$!
        wait $told
        took=$((($(date +%s%N) - begun) / 1000000))
        wait $stopping
        podman "$@" logs relay 2>&1 | grep -q stopping
        [ "$(podman "$@" inspect -f "{{.State.ExitCode}}" relay)" = 0 ]
        podman "$@" rm relay > "$room/relay"
        echo "told after $took ms"
        [ "$took" -le 2000 ]' image "${store[@]}" "${runs[@]}"
}

try_image() {
    local there store=(--root "$room/store" --runroot "$room/stored" --storage-driver vfs) runs=(--runtime runc --cgroup-manager cgroupfs)
    there=$(echo "$root"/root/work/gofnjerta-*/)
    if ! command -v buildah > "$room/found" || ! command -v podman > "$room/found" || ! command -v runc > "$room/found"; then
        skip "$1-image" 'buildah, podman and runc are not all here'
    elif ! build_base > "$room/said" 2>&1; then
        skip "$1-image" "podman runs nothing here: $(tail -n 2 "$room/said" | tr '\n' ' ')"
    else
        try "$1-image" image
    fi
    # What podman leaves to clean up behind a container may take a moment longer.
    rm -rf "$room/store" "$room/stored" "$room/base" 2> "$room/gone" || { sleep 3; rm -rf "$room/store" "$room/stored" "$room/base"; }
}

removal() {
    inside 'apt-get purge -q -y libgofnjerta0 libgofnjerta-dev libenet7-gofnjerta
        if find / -xdev \( -path /root -o -path /proc -o -path /opt \) -prune -o \( -name "*gofnjerta*" -o -name "enet*relay*" \) -print | grep -v /var/log | grep .; then exit 1; fi'
}

install_tools
if ! build_clients "$room" > "$room/said" 2>&1 || ! cc -O1 c/games/cube.c -o "$room/cube" -lenet || ! cc c/tests/tutorial.c -o "$room/tutorial" -lenet; then
    tail -n 5 "$room/said"
    echo '0 passed, 1 failed, 0 skipped'
    exit 1
fi
sums() {
    (cd "$folder" && sha256sum --check SHA256SUMS)
}
try sums sums
if command -v lintian > "$room/found"; then try lintian lintian --allow-root --fail-on error "$folder"/*.deb; else skip lintian "it can't be installed"; fi
for suite; do
    begun=$SECONDS
    if ! unpack "$suite" > "$room/said" 2>&1; then
        skip "$suite" "no root: $(tail -n 2 "$room/said" | tr '\n' ' ')"
        continue
    fi
    echo "$suite: a root after $((SECONDS - begun)) seconds"
    for test in installs server c cpp tutorial python archive; do try "$suite-$test" "$test"; done
    readme "$suite"
    try "$suite-cube2" cube2
    booted "$suite"
    try_image "$suite"
    try "$suite-removal" removal
    rm -rf --one-file-system "$root"
done
echo "$passed passed, $failed failed, $skipped skipped"
[ "$failed" -eq 0 ]
