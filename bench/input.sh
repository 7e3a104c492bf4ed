# What bench/run and scripts/check/check-speed.sh share.
bench=$(cd "$(dirname "${BASH_SOURCE[0]}")" && pwd)

# The words behind $2, for a program: `SEED` is the seed $1, and `<NAME.awk,SIZE` is no word but the standard input that bench/NAME.awk
# writes, of this size and as that seed draws; it becomes a file in the folder $2. The words are left in `words`, the standard input's
# file in `input`.
take_words() {
    local seed=$1 room=$2 word
    shift 2
    words=()
    input=/dev/null
    for word in "$@"; do
        case $word in
        SEED) words+=("$seed") ;;
        '<'*)
            word=${word#<}
            input=$room/input
            awk -v seed="$seed" -v size="${word#*,}" -f "$bench/${word%,*}" > "$input" || return 1
            ;;
        *) words+=("$word") ;;
        esac
    done
}
