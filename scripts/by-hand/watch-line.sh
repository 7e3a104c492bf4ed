#!/usr/bin/env bash
# Tries the dashboard of deploy/grafana by hand: `watch-line.sh [PROGRAM] [PICTURE]`. `enet_relay serve --metrics` is asked by Debian's Prometheus,
# by deploy/prometheus/prometheus.yml, each second, while 32 clients of the reference library talk over a line that loses 10 % and is down
# for four seconds (clients/proxy.c), others forge CONNECTs (clients/forge.c), and some send what no host reads. Then each panel is drawn
# (measure/panels.py) into PICTURE, an SVG, by default out/panels.svg; where rsvg-convert is there it is made a PNG beside it, too. PROGRAM is
# the built `enet_relay`, by default the one that `rt ci`, or `rt run` in crates/enet_relay, leaves. Installs Prometheus, as root, where it is
# missing. It takes a minute.
cd "$(dirname "$0")/../.." || exit 1
. scripts/lib/clients.sh
program=${1:-crates/enet_relay/out/enet_relay}
picture=${2:-out/panels.svg}
mkdir -p "$(dirname "$picture")" || exit 1
room=$(mktemp -d) || exit 1
trap 'kill $(jobs -p) 2> /dev/null; wait; rm -rf "$room"' EXIT
command -v prometheus > "$room/found" || install_packages prometheus > "$room/install" 2>&1 || { cat "$room/install" >&2; exit 1; }
build_clients "$room" || exit 1
free_port
server=$port
free_port
way=$port
free_port
asked=$port
"$program" serve --port "$server" --forever --peers 64 --metrics "127.0.0.1:$server" > "$room/out" 2> "$room/err" &
"$room/proxy" "$way" "$server" 7 loss 10 down 4000 2> "$room/proxy.err" &
sed "s/9100/$server/; s/5s/1s/" deploy/prometheus/prometheus.yml > "$room/prometheus.yml"
prometheus --config.file="$room/prometheus.yml" --storage.tsdb.path="$room/data" --web.listen-address="127.0.0.1:$asked" 2> "$room/prometheus.err" &
for _ in {1..100}; do
    (exec 3<> "/dev/tcp/127.0.0.1/$asked") 2> /dev/null && break
    sleep 0.1
done
sleep 3
begun=$(date +%s)
"$room/steady" "$way" 32 25 200 &
talking=$!
sleep 14
"$room/forge" "$server" 10 4 &
for _ in {1..60}; do
    printf x > "/dev/udp/127.0.0.1/$server"
    sleep 0.1
done
wait "$talking"
sleep 8
python3 measure/panels.py "http://127.0.0.1:$asked" "$begun" "$(date +%s)" "$picture"
status=$?
command -v rsvg-convert > "$room/found" && rsvg-convert -z 1.5 "$picture" -o "${picture%.svg}.png"
exit "$status"
