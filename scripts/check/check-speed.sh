#!/usr/bin/env bash
# Counts the instructions of the built programs by valgrind, which is installed where it is missing (as root), for each line of
# bench/instructions.txt: a name, its count, the program and its words (bench/input.sh has what stands for a standard input). A line fails
# where the program takes over 1 % more than its count; where it takes 2 % less or fewer, this is said, so that the count is lowered. The last line is
# 'N passed, M failed'; the status is 1 where one fails. The programs are those that `rt ci`, or `rt run` in their folders, leaves: counts
# of proved builds are alike on each machine to within a thousandth.
#     check-speed.sh                   compares
#     check-speed.sh --write           writes what it counted into bench/instructions.txt, whose head says when that may be done, and into the
#                                      table of docs/PERF.md (scripts/check/perf.py)
#     check-speed.sh --print CHECKOUT  prints for each line what the programs of another built checkout take
cd "$(dirname "$0")/../.." || exit 1
. bench/input.sh
. scripts/lib/packages.sh
. scripts/lib/tally.sh
counts=bench/instructions.txt
task=${1:-compare}
top=$PWD

# Valgrind, installed as root where it is missing.
have_valgrind() {
    command -v valgrind > /dev/null && return
    install_packages valgrind > "$room/install" 2>&1 || { cat "$room/install" >&2; return 1; }
}

# Counts the instructions of the program $1 with the words behind it, into `counted`.
count() {
    local program="$top/crates/$1/out/$1"
    shift
    counted=
    [ -x "$program" ] || { echo "$program isn't there: run 'rt ci', or 'rt run' in its folder" > "$room/told"; return 1; }
    take_words 1 "$room" "$@" || return 1
    env -i "$(command -v valgrind)" --tool=cachegrind --cache-sim=no --cachegrind-out-file=/dev/null "$program" ${words[@]+"${words[@]}"} \
        < "$input" > "$room/out" 2> "$room/told" || return 1
    counted=$(awk '/ I +refs:/ { gsub(",", "", $NF); print $NF }' "$room/told")
    [ -n "$counted" ]
}

# Compares `counted` with the count $2 of the line $1.
compare() {
    local more
    [ "$2" -gt 0 ] || { fail "$1" "no count is written, it takes $counted instructions"; return; }
    more=$(awk -v now="$counted" -v old="$2" 'BEGIN { printf "%.2f", (now / old - 1) * 100 }')
    if awk -v more="$more" 'BEGIN { exit !(more > 1) }'; then
        fail "$1" "$counted instructions where $2 are written, $more % more"
        return
    fi
    passed=$((passed + 1))
    if awk -v more="$more" 'BEGIN { exit !(more <= -2) }'; then
        echo "$1: $counted instructions where $2 are written, ${more#-} % fewer: lower it (check-speed.sh --write)"
    fi
}

# A line of the file.
line() {
    local name=$1 old=$2
    shift 2
    if ! count "$@"; then
        fail "$name" "$(tail -c 400 "$room/told")"
        echo "$name $old $*" >> "$room/counts"
        return
    fi
    echo "$name $counted $*" >> "$room/counts"
    case $task in
    --print) echo "$name $counted" && passed=$((passed + 1)) ;;
    --write) passed=$((passed + 1)) ;;
    *) compare "$name" "$old" ;;
    esac
}

room=$(mktemp -d) || exit 1
trap 'rm -rf "$room"' EXIT
case $task in
compare | --write) ;;
--print) top=$(cd "${2:?CHECKOUT}" && pwd) || exit 2 ;;
*) echo 'check-speed.sh [--write | --print CHECKOUT]' >&2; exit 2 ;;
esac
if ! have_valgrind; then
    fail valgrind "it isn't there"
elif ! [ -r "$counts" ]; then
    fail "$counts" "it isn't there"
else
    while IFS= read -r text; do
        case $text in
        '' | '#'*) echo "$text" >> "$room/counts" ;;
        *)
            # shellcheck disable=SC2086
            line $text < /dev/null
            ;;
        esac
    done < "$counts"
    [ "$passed" -gt 0 ] || fail "$counts" "it has no line"
    [ "$task" != --write ] || [ "$failed" -gt 0 ] || { cp "$room/counts" "$counts" && python3 scripts/check/perf.py --write; }
fi
echo "$passed passed, $failed failed"
[ "$failed" -eq 0 ]
