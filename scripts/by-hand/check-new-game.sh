#!/usr/bin/env bash
# What new-game.sh makes, in a folder that goes afterwards: its rule is proved (`rt check`, which proves enet_codec first), and its server and
# client, built by `rt try` and so unproved, say to each other what the stored run says. Prints what failed, and as last line
# 'N passed, M failed'; the status is 1 where one failed. Takes some three minutes of a processor.
cd "$(dirname "$0")/../.." || exit 1
. scripts/lib/clients.sh
. scripts/lib/tally.sh
room=$(mktemp -d) || exit 1
trap 'rm -rf "$room"' EXIT

proves() {
    (cd "$room/game/crates/walk_rule" && rt check --jobs 1) > "$room/said" 2>&1 < /dev/null && grep -q '^logic=proved functions=3 ' "$room/said"
}

plays() {
    free_port
    (cd "$room/game/crates/walk" && rt try -- both "$port") > "$room/played" 2> "$room/said" < /dev/null
    cat "$room/played" >> "$room/said"
    diff "$room/game/crates/walk/stdout" <(grep '^at ' "$room/played") >> "$room/said"
}

# A name that is taken, or isn't one, is refused, and so is a folder that is there.
refuses() {
    ! bash scripts/by-hand/new-game.sh enet_host "$room/other" 2> "$room/said" &&
        ! bash scripts/by-hand/new-game.sh Walk "$room/other" 2> "$room/said" &&
        ! bash scripts/by-hand/new-game.sh walk "$room/game" 2> "$room/said" && [ ! -e "$room/other" ]
}

if ! bash scripts/by-hand/new-game.sh walk "$room/game" > "$room/said" 2>&1; then
    first_error "$room/said"
    echo '0 passed, 1 failed'
    exit 1
fi
for test in proves plays refuses; do
    if "$test"; then passed=$((passed + 1)); else fail "$test" "$(first_error "$room/said" | cut -c 1-300)"; fi
done
echo "$passed passed, $failed failed"
[ "$failed" -eq 0 ]
