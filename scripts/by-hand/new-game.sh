#!/usr/bin/env bash
# A repository of one's own for a game over the host: `new-game.sh NAME FOLDER` makes FOLDER, which must not be there, with
#   crates/NAME_rule   the rule, in a library over bytes and enet_codec alone, with its contracts
#   crates/NAME        the server around it, in one thread, and a client to try it with
#   crates/..          copies of the crates that these stand on, as they are here, without their edits
#   crates.txt, HANDLES, README.md, .gitignore
# README.md there tells what to type next. NAME is a small letter, and then small letters, digits and _. The texts are those of
# scripts/by-hand/new-game, in which GAME stands for NAME, and node.rt of example_echo. Nothing is proved or built. The status is 1 where
# something failed.
set -eu
stop() {
    echo "new-game.sh: $1" >&2
    exit 1
}
[ $# -eq 2 ] || stop 'usage: new-game.sh NAME FOLDER'
name=$1
[[ $name =~ ^[a-z][a-z0-9_]*$ ]] || stop "$name: small letters, digits and _ make a name, a letter first"
[ ! -e "$2" ] || stop "$2 is there already"
folder=$(realpath -m "$2")
cd "$(dirname "$0")/../.."
libraries=$(dirname "$(rt doc)")/rlibs
for crate in "$name" "${name}_rule"; do
    [ ! -e "crates/$crate" ] && [ ! -e "$libraries/$crate.rlib" ] || stop "$crate is the name of a crate that is there"
done

# The lines of crates.txt for the crates $@ and those below them, from below.
lines_below() {
    awk -v wanted="$*" '
        function want(crate,    i, count, uses) {
            if (!(crate in line) || crate in seen) { return }
            seen[crate] = 1
            count = split(below[crate], uses, " ")
            for (i = 1; i <= count; i++) { want(uses[i]) }
            print line[crate]
        }
        /^[a-z]/ { crate = $1; sub(/:$/, "", crate); line[crate] = $0; below[crate] = substr($0, index($0, ":") + 1) }
        END { count = split(wanted, crates, " "); for (i = 1; i <= count; i++) { want(crates[i]) } }' crates.txt
}

# The text $1 of scripts/by-hand/new-game as the file $2, with the game's name.
write_text() {
    mkdir -p "$(dirname "$2")"
    sed "s/GAME/$name/g" "scripts/by-hand/new-game/$1.in" > "$2"
}

mkdir -p "$folder/crates"
lines_below enet_codec enet_wire enet_host > "$folder/crates.txt"
while read -r crate _; do
    tar --exclude='*/out' --exclude='*/must-fail' -cf - "crates/${crate%:}" | tar -xf - -C "$folder"
done < "$folder/crates.txt"
{
    echo
    echo "${name}_rule: bytes enet_codec"
    echo "$name may_wait=10: bytes enet_codec enet_wire enet_host ${name}_rule"
} >> "$folder/crates.txt"
cp HANDLES "$folder/"
printf 'crates/*/out/\n' > "$folder/.gitignore"
rule=$folder/crates/${name}_rule
game=$folder/crates/$name
write_text README.md "$folder/README.md"
write_text rule.rt "$rule/src/lib.rt"
write_text player.rt "$rule/src/player.rt"
write_text Walk.antt "$rule/specs/Walk.antt"
write_text Lib.antt "$rule/specs/Lib.antt"
for file in main server client; do write_text "$file.rt" "$game/src/$file.rt"; done
cp crates/example_echo/src/node.rt "$game/src/"
printf 'both\n47232\n' > "$game/args"
printf 'at 1\nat 2\nat 1\n' > "$game/stdout"
# A list of imports is sorted by names, the game's among them.
for crate in "$rule" "$game"; do (cd "$crate" && rt fmt); done > "$folder/out" 2>&1 || { cat "$folder/out" >&2; stop 'rt fmt failed'; }
rm "$folder/out"
echo "made: $folder. Go on with its README.md"
