#!/bin/sh
# relay_run.sh PROGRAM WORDS..: runs `enet_relay serve` with these words and --control. At SIGTERM (as by systemctl stop or podman stop) and
# SIGINT it sends `stop` to the program, which notifies its clients and ends within a second or two; then this shell ends with its status.
# The program itself catches no signal: SIGTERM would end it at once, and as process 1 of a container it gets none, since the kernel drops
# it. Its standard input is a FIFO. If CONTROL names a file, the FIFO is there while it runs, and whoever may write to it can send lines to
# the program (docs/OPERATING.md, "Control while it runs"); else nobody can. Used by deploy/systemd and deploy/container.
fifo=${CONTROL:-$(mktemp -u)}
umask 077
rm -f "$fifo"
# The FIFO is also open for writing here, so that it has no end.
mkfifo "$fifo" && exec 3<> "$fifo" || exit 1
[ -n "${CONTROL:-}" ] || rm "$fifo"
# A signal that comes before the program reads waits for it in the FIFO.
trap 'echo stop >&3' TERM INT
"$@" --control <&3 3<&- &
program=$!
# A caught signal ends `wait` before the program ends: wait again until it's gone.
while kill -0 "$program" 2> /dev/null; do
    wait "$program"
    status=$?
done
[ -z "${CONTROL:-}" ] || rm -f "$fifo"
exit "$status"
