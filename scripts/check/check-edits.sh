#!/usr/bin/env bash
# Tries the edits of edits/CRATE/, which the gate leaves alone, and those of crates/CRATE/must-fail/: `check-edits.sh [--read | --write]
# [CRATE | CRATE/NAME ..]`, where NAME is one edit of a crate; where nothing is named it tries all. `rt check` proves the crates as they stand, in a copy of the repository, over the libraries that `rt ci`
# left here (take-libraries.py); where it left none, that takes an hour and more. Then each edit is made there and checked, in 10 to 40 seconds,
# and is told by how the prover refuses it:
#
#     false   It names values that all facts known at a goal allow and at which the goal is false, and has computed it there ('the facts known
#             there allow values at which this goal is false'). No proof of the edited code gets past that, as long as nothing else is known.
#     limit   Its search for a proof ended at a limit of time or steps ('`search` gave up at one of its limits'), and found no such values.
#     open    Its search ended without a proof, for want of a lemma perhaps, and found no such values.
#     proof   A lemma that was written for the code as it was doesn't fit. Where an answer to a goal doesn't, the edit is checked once more
#             without that answer, and is told by what comes of it then.
#     name    Nothing but a proof file that names what the edit took away is wrong.
#
# Only the first shows that a contract doesn't allow the edit: a goal that is limit, open or proof may be true and three lines away from its
# proof. So is, for one, that of a call which answers 'no memory' where it likes: no clause says when memory is wanting. Passed are those that
# are false; limit, open and proof neither pass nor fail, and are named. An edit fails of which only a name is gone, that is still proved, that
# can't be made or read, or came to no result. With --read nothing is proved: in half a minute it shows which edits no longer fit the text, and
# each that fits passes. Prints how many libraries it took, what failed, and for each crate how many edits became what, in how many seconds.
# What each edit of a crate became is kept in out/edits/CRATE.txt, below a line with the commit and the kit. With --write it is written to
# measure/results/edits.csv, too, in place of what that has of the edit, with the commit and the day: do so by hand, once all is committed.
# The last line is 'N passed, M failed'; the status is 1 where one failed, or nothing was tried.
cd "$(dirname "$0")/../.." || exit 1
. scripts/lib/tally.sh

# Whether there are edits of the crate $1, and the one of the name $2 where one is named.
has_edits() {
    local file=${2:+/$2.edit}
    [ -d "crates/$1" ] && { [ -e "edits/$1$file" ] || [ -e "crates/$1/must-fail$file" ]; } && return
    fail "$1${2:+/$2}" "there are no edits of a crate of this name, or none of this name"
    return 1
}

# Copies what `rt` reads of the repository, with all edits of these crates in must-fail/.
copy() {
    local crate
    mkdir "$copy" && tar -cf - --exclude='crates/*/out' crates crates.txt HANDLES | tar -xf - -C "$copy" || return 1
    for crate; do
        mkdir -p "$copy/crates/$crate/must-fail"
        [ ! -d "edits/$crate" ] || cp "edits/$crate"/* "$copy/crates/$crate/must-fail/" || return 1
    done
}

# Makes the edit of the file $1 in the folder, where it may stand: each `old:` once in its file. What doesn't fit is on standard error.
make_edit() {
    awk '
        function give_up(why) { print why > "/dev/stderr"; bad = 1; exit 1 }
        function text_of(path, line, text) {
            while ((getline line < path) > 0) text = text line "\n"
            close(path)
            return text
        }
        /^file: / { path = substr($0, 7) }
        /^old: / { old = substr($0, 6) }
        /^new:/ {
            text = text_of(path)
            at = old == "" ? 0 : index(text, old)
            rest = substr(text, at + length(old))
            if (at == 0 || index(rest, old) > 0) give_up("an `old:` text does not stand once in " path)
            printf "%s%s%s", substr(text, 1, at - 1), substr($0, 6), rest > path
            close(path)
            made = 1
        }
        END { if (!made && !bad) give_up("it has no pair of `old:` and `new:`") }
    ' "$1"
}

# What became of an edit, by the status $1 with which `rt check` ended, and what it said in $room/said.
outcome() {
    local names='has no field|is not in scope|has no `|was not admitted'
    if [ "$1" -eq 0 ]; then
        echo 'not refused: the crate is still proved'
    elif ! grep -q '^logic=not-proved' "$room/said"; then
        echo "no result: $(grep -m 1 'error' "$room/said" || tail -n 1 "$room/said")"
    elif grep -q '; the facts known there allow values at which this goal is false' "$room/said"; then
        echo false
    elif grep -Eq '`(search|grind)` gave up at one of its limits' "$room/said"; then
        echo limit
    elif grep -q '^note: [^ ]*: it is not proved that ' "$room/said"; then
        echo open
    elif grep -E '^(\./)?proofs/[^ ]+: error' "$room/said" | grep -Evq "$names"; then
        echo proof
    elif grep -Eq '^(\./)?proofs/[^ ]+: error' "$room/said"; then
        echo name
    else
        echo "no result: $(grep -m 1 'error' "$room/said" || tail -n 1 "$room/said")"
    fi
}

# Takes the answers away that don't fit their goals, by what `rt check` said. False where there are none.
drop_answers() {
    local file goal found=1
    while read -r file goal; do
        awk -v goal="$goal" 'BEGIN { RS = ""; ORS = "\n\n" } { text = "\n" $0 } index(text, "\npub " goal " :") == 0' "$file" > "$room/answers" &&
            cp "$room/answers" "$file" && found=0
    done < <(sed -nE 's/^(\.\/)?(proofs\/[^ ]*\/Answers\.antt):[0-9]+:[0-9]+: error: `([^`]+)`.*/\2 \3/p' "$room/said" | sort -u)
    return "$found"
}

# Puts the crate back as it stands, with what its check kept, in its folder of the copy.
restore() {
    rm -rf src specs proofs out
    cp -a "$room/whole/." .
}

# Tries the edit of the file $1 of the crate $2, in its folder of the copy, over what the check of the crate as it stands kept.
try_edit() {
    local name=$2/${1##*/} what
    restore || return 1
    if ! make_edit "$1" 2> "$room/said"; then
        fail "$name" "$(<"$room/said")"
        return
    fi
    rt check --jobs 1 > "$room/said" 2>&1
    what=$(outcome $?)
    if [ "$what" = proof ] && drop_answers; then
        rt check --jobs 1 > "$room/said" 2>&1
        what=$(outcome $?)
    fi
    case $what in
        false) passed=$((passed + 1)) ;;
        limit | open | proof) echo "$name: $what: $(grep -E ': error|^note: ' "$room/said" | grep -m 1 -Ev 'large solution' | cut -c 1-200)" ;;
        *) fail "$name" "$what" ;;
    esac
    became[$what]=$((${became[$what]:-0} + 1))
    echo "${1##*/} $what" >> "$top/out/edits/$2.txt"
}

# Tries all edits of the crate $1, and leaves it as it stands for the crates above it.
try_all() {
    local begun=$SECONDS edit what told=''
    local -A became=()
    pushd "$copy/crates/$1" > /dev/null || return
    if ! rt check --jobs 1 > "$room/said" 2>&1; then
        fail "$1" "it isn't proved as it stands: $(grep -m 3 error "$room/said" || tail -n 3 "$room/said")"
    else
        rm -rf "$room/whole"
        mkdir "$room/whole"
        cp -a src specs proofs out "$room/whole/" 2> "$room/said"
        echo "commit $commit, kit $(rt version)" > "$top/out/edits/$1.txt"
        for edit in must-fail/*; do
            [ -n "${only[$1]}" ] && [[ ${only[$1]} != *" ${edit##*/} "* ]] || try_edit "$edit" "$1"
        done
        restore || fail "$1" "it could not be put back"
        for what in false limit open proof; do
            told="$told, ${became[$what]:-0} $what"
        done
        echo "$1:${told#,} in $((SECONDS - begun)) seconds"
        [ "$writes" = no ] || write_record "$1"
    fi
    popd > /dev/null || return
}

# The rows of the record that it is to have: those of the crate $1 that were tried, and what it had of other edits that are still there.
rows() {
    local crate edit what rest
    sed 1d "$top/out/edits/$1.txt" | while read -r edit what; do
        echo "$1,${edit%.edit},${what%%:*},${commit:0:8},$(date +%F),$(nproc) processors"
    done
    [ -f "$record" ] && sed 1d "$record" | while IFS=, read -r crate edit rest; do
        [ ! -f "$top/edits/$crate/$edit.edit" ] && [ ! -f "$top/crates/$crate/must-fail/$edit.edit" ] || echo "$crate,$edit,$rest"
    done
}

# Writes what became of the edits of the crate $1 to the record.
write_record() {
    { echo 'crate,edit,became,commit,date,machine'; rows "$1" | LC_ALL=C sort -s -u -t , -k 1,1 -k 2,2; } > "$room/record" &&
        cp "$room/record" "$record"
}

# Has `rt fmt` read the edits of the crate $1: it tells of each that it can't apply.
read_all() {
    local edit said
    (cd "$copy/crates/$1" && rt fmt) > "$room/said" 2>&1 || { fail "$1" "$(tail -n 3 "$room/said")"; return; }
    for edit in "$copy/crates/$1/must-fail"/*; do
        said=$(grep -F "must-fail/${edit##*/} " "$room/said")
        [[ $edit == *.edit ]] || said="its name has to end in .edit"
        if [ -z "$said" ]; then passed=$((passed + 1)); else fail "$1/${edit##*/}" "$said"; fi
    done
}

room=$(mktemp -d) || exit 1
trap 'rm -rf "$room"' EXIT
top=$PWD
commit="$(git rev-parse HEAD)$([ -z "$(git status --porcelain)" ] || echo ', with changes that no commit has')"
copy=$room/copy
way=try
writes=no
[ "$1" != --read ] || { way='read'; shift; }
[ "$1" != --write ] || { writes=yes; shift; }
if [ "$writes" = yes ] && [ -n "$(git status --porcelain)" ]; then
    echo "--write: there are changes that no commit has"
    exit 1
fi
if [ $# -eq 0 ]; then
    mapfile -t crates < <({ ls edits; ls -d crates/*/must-fail | cut -d / -f 2; } | sort -u)
    set -- "${crates[@]}"
fi
record=$top/measure/results/edits.csv
known=()
declare -A only=()
for name; do
    crate=${name%%/*}
    edit=${name#"$crate"}
    if has_edits "$crate" "${edit#/}"; then
        [[ " ${known[*]} " == *" $crate "* ]] || known+=("$crate")
        [ -z "$edit" ] || only[$crate]+=" ${edit#/}.edit "
    fi
done
if [ ${#known[@]} -gt 0 ]; then
    if copy "${known[@]}"; then
        [ "$way" = read ] || { mkdir -p out/edits && python3 scripts/by-hand/take-libraries.py . "$copy"; }
        for crate in "${known[@]}"; do
            "${way}_all" "$crate"
        done
    else
        fail copy "no copy of the repository could be made"
    fi
fi
echo "$passed passed, $failed failed"
[ "$failed" -eq 0 ] && [ "$passed" -gt 0 ]
