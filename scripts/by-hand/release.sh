#!/usr/bin/env bash
# A release: `release.sh [--after-tests] FOLDER` makes of the commit that is checked out, in FOLDER,
#   gofnjerta-VERSION-linux-x86_64.tar.gz   the program, the libraries for C, manual, completion, examples, bindings/, deploy/, docs/ and tools/, to unpack anywhere
#   gofnjerta-VERSION-py3-none-manylinux_2_34_x86_64.whl    bindings/python with the archive's libgofnjerta.so.0 in it, for pip
#   *.deb                                   the five packages of package-relay.sh and package-c.sh
#   gofnjerta-VERSION-proved-libraries.tar.zst   what the gate left of the libraries, for take-libraries.py; only where it has at most 300 MB
#   PROVED.txt                              commit, kit, how many functions were proved of each crate, what was tested, what is trusted
#   THIRD-PARTY.txt                         what of others is linked into them, and its licences
#   SHA256SUMS
# The checkout must have no change that isn't in the commit. First it runs the gate (`rt ci`) and stops unless that ends with status 0; then
# archive-c.sh, and count-proved.py, since a gate that keeps proofs doesn't count the functions of a crate that it took from an earlier one. With
# --after-tests it takes what scripts/test.sh left at this commit, with this kit and without a failure (out/tests.txt, out/tested), if program and
# archive are those that were tested. Files have the commit's time and name no folder of the machine, so that two runs over the same program and
# archive write the same bytes.
# `release.sh --pack FOLDER [PROGRAM [ARCHIVE]]` runs no gate and packs what stands there, by default crates/enet_relay/out/enet_relay and
# crates/enet_c/out/libenet_c.a: to try the packing. PROVED.txt then says that it is no release.
# It takes what package-relay.sh and package-c.sh take, and Debian's python3 with python3-build, python3-setuptools and python3-wheel. The status is 1 where something failed; FOLDER has no SHA256SUMS then.
set -eu
usage() {
    echo "usage: release.sh [--after-tests] FOLDER | release.sh --pack FOLDER [PROGRAM [ARCHIVE]]" >&2
    exit 1
}
mode=gate
case ${1:-} in
    --after-tests) mode=tests; shift ;;
    --pack) mode=pack; shift ;;
esac
[ $# -ge 1 ] && [[ $1 != -* ]] || usage
[ "$mode" = pack ] && [ $# -le 3 ] || [ $# -eq 1 ] || usage
mkdir -p "$1"
folder=$(cd "$1" && pwd)
program=$(realpath -m "${2:-$(dirname "$0")/../../crates/enet_relay/out/enet_relay}")
archive=$(realpath -m "${3:-$(dirname "$0")/../../crates/enet_c/out/libenet_c.a}")
cd "$(dirname "$0")/../.."
room=$(mktemp -d)
trap 'rm -rf "$room"' EXIT
. scripts/lib/packaging.sh
. scripts/lib/tally.sh

stop() {
    echo "release.sh: $1" >&2
    exit 1
}
for tool in dpkg-deb help2man objdump strip zstd; do
    command -v "$tool" > "$room/found" || stop "$tool isn't here: it takes Debian's dpkg, help2man, binutils and zstd"
done
/usr/bin/python3 -c 'import build, setuptools, wheel' 2> "$room/found" ||
    stop "the wheel can't be built: it takes Debian's python3, python3-build, python3-setuptools and python3-wheel"

# Whether out/tests.txt is of this commit and kit, and tells of no failure.
tests_passed() {
    [ -r out/tests.txt ] && [ "$(sed -n 1p out/tests.txt)" = "commit $(git rev-parse HEAD)" ] && [ "$(sed -n 2p out/tests.txt)" = "kit $(rt version)" ] &&
        ! grep -q 'FAILED\|, [1-9][0-9]* failed' out/tests.txt
}

# What scripts/test.sh left, if it is of this commit and of the program and archive that stand here.
take_tested() {
    tests_passed || stop 'out/tests.txt is not of this commit and kit, or tells of a failure: run scripts/test.sh'
    sha256sum --quiet --check out/tested/sums.txt || stop 'the program or the archive is not the one that scripts/test.sh tested'
    cp out/tested/gate.txt "$room/gate"
    cp out/tested/archive.txt "$room/archive"
}

# The gate, with what it said in $room/gate, and the proved part of the library for C.
prove() {
    local status=0
    rm -rf crates/*/out/rlib crates/enet_c/out/libenet_c.a
    rt ci > "$room/gate" 2>&1 || status=$?
    tail -n 2 "$room/gate"
    [ "$status" = 0 ] || { first_error "$room/gate" >&2; stop "rt ci ended with status $status"; }
    bash scripts/lib/archive-c.sh > "$room/archive" 2>&1 || { first_error "$room/archive" >&2; stop "archive-c.sh failed"; }
}

# The functions of each crate, with what the gate and archive-c.sh said of them.
count_proved() {
    { cat "$room/gate"; echo '== enet_c'; cat "$room/archive"; } > "$room/told"
    python3 scripts/lib/count-proved.py "$room/told" > "$room/checked" || stop "nobody says how many functions of each crate were proved"
    ! grep -rqE '^ *axiom ' --include='*.antt' --include='*.rt' crates || stop 'an axiom is declared'
}

# How the prover refused the edits that check-edits.sh tried at this commit.
tell_edits() {
    local told=()
    mapfile -t told < <(grep -lxF "commit $(git rev-parse HEAD), kit $(rt version)" out/edits/*.txt 2> /dev/null)
    if [ ${#told[@]} -eq 0 ]; then
        echo "Of the edits in edits/ no verdict at this commit is on record."
    else
        echo "Of the edits in edits/ scripts/check/check-edits.sh tried at this commit:"
        awk 'FNR > 1 { sub(/^[^ ]+ /, ""); sub(/:.*/, ""); became[$0]++ } END { for (what in became) printf "    %-12s %5d\n", what, became[what] }' "${told[@]}" | sort
    fi
}

write_proved() {
    echo "Gofnjerta $version, commit $(git rev-parse HEAD), kit $(rt version)"
    echo
    if [ "$mode" = pack ]; then
        echo "Packed without the gate: this is no release, and nothing here says that its program and libraries were proved."
        return
    fi
    # How much of it was kept from an earlier gate is left out: it isn't the same in each run.
    echo "The gate proved every function of every crate, and ended so:"
    sed -n 's/^\(rt: ok; .*\); \(done in this run\|every proof\).*/    \1/p; $s/^/    /p' "$room/gate"
    echo
    echo "Functions proved, as the prover counts them:"
    awk '{ sum += $2; printf "    %-20s %5d\n", $1, $2; for (i = 3; i <= NF; i++) beside = beside "    " $1 " " $i "\n" }
        END { printf "    %-20s %5d\n\n", "in all", sum; print "Axioms that a crate declares or that the prover names, and C functions of a crate'"'"'s own:"
            printf "%s", beside == "" ? "    none\n" : beside }' "$room/checked"
    echo
    if [ "$mode" = tests ]; then
        echo "Tests of this commit (scripts/test.sh):"
        tail -n +3 out/tests.txt | sed 's/^/    /'
    else
        echo "Whether scripts/test.sh passed at this commit was not asked."
    fi
    echo
    echo "Must-fail edits that the gate tried are told above."
    tell_edits
    echo
    echo "Trusted: the toolchain (Rattle's prover and compiler, LLVM), the C library, what the kit states of the libraries in THIRD-PARTY.txt, and"
    echo "three functions of enet_wire (src/journaled.rt), by which a socket notes its address and what datagrams the system gave and took. The C"
    echo "code (gofnjerta.c, libenet's names, their pool of blocks) is tested, not proved."
}

# Stops unless the program tells the version, and where it is proved here the kit, too.
hold_version() {
    local told wanted="enet_relay $version ("
    [ "$mode" = pack ] || wanted="enet_relay $version ($(rt version))"
    told=$("$program" --version) || stop "$program doesn't tell its version"
    [[ $told == "$wanted"* ]] || stop "$program tells '$told' where '$wanted' is wanted: crates/enet_console/src/versions.rt"
}

# The archive, whose one folder is named as it is; `there` is that folder.
pack_archive() {
    local name=gofnjerta-$version-linux-x86_64
    there=$room/$name
    mkdir -p "$there/bin" "$there/share/bash-completion/completions"
    bash scripts/by-hand/build-c.sh "$there" "$archive" > "$room/said"
    install -m 755 "$program" "$there/bin/enet_relay"
    for file in "$there"/lib/*.a "$there/lib/libgofnjerta.so.0" "$there/lib/gofnjerta/libenet.so.7" "$there"/bin/*; do strip_file "$file"; done
    write_manuals "$there/bin/enet_relay" "$there/share/man/man1"
    install -m 644 deploy/bash/enet_relay "$there/share/bash-completion/completions/"
    write_examples "$there/examples"
    git archive HEAD bindings deploy docs tools README.md CHANGELOG.md SECURITY.md | tar -xf - -C "$there"
    write_copyright > "$there/COPYRIGHT.txt"
    cp "$room/PROVED.txt" "$room/THIRD-PARTY.txt" "$there/"
    chmod -R u=rwX,go=rX "$there"
    write_tar "$room" "$name" | gzip -9n > "$folder/$name.tar.gz"
    echo "made: $folder/$name.tar.gz"
}

# The wheel, of what the archive has.
pack_wheel() {
    local name=gofnjerta-$version-py3-none-manylinux_2_34_x86_64.whl
    cp -r "$there/bindings/python" "$room/python"
    cp "$there/COPYRIGHT.txt" "$there/THIRD-PARTY.txt" "$room/python/"
    GOFNJERTA_DIR=$there /usr/bin/python3 -m build --wheel --no-isolation --outdir "$room/wheel" "$room/python" > "$room/said" 2>&1 ||
        { tail -n 5 "$room/said" >&2; stop "the wheel can't be built"; }
    install -m 644 "$room/wheel/$name" "$folder/"
    echo "made: $folder/$name"
}

# The tar of $2.. in the folder $1, the same bytes for the same files.
write_tar() {
    tar -C "$1" --sort=name --format=gnu --owner=0 --group=0 --numeric-owner --mtime="@$SOURCE_DATE_EPOCH" --mode=u=rwX,go=rX -cf - "${@:2}"
}

# The libraries that the gate left.
pack_libraries() {
    local file=$folder/gofnjerta-$version-proved-libraries.tar.zst
    write_tar . crates/*/out/rlib/*.rlib > "$room/libraries.tar"
    ! grep -qaF -e "$PWD" -e "${room%/*}/tmp." "$room/libraries.tar" || stop 'the libraries name a folder of this machine'
    zstd -q -12 --long=27 "$room/libraries.tar" -o "$file"
    if [ "$(stat -c %s "$file")" -gt 300000000 ]; then
        rm "$file"
        echo 'left out: the proved libraries take more than 300 MB'
        return
    fi
    echo "made: $file"
}

# Whether no file of the archive, the wheel or the packages names a folder of this machine: the checkout's, the kit's or a temporary one.
names_no_folder() {
    local file kit
    kit=$(dirname "$(rt doc)")
    mkdir "$room/all"
    tar -xzf "$folder"/gofnjerta-*.tar.gz -C "$room/all"
    /usr/bin/python3 -m zipfile -e "$folder"/gofnjerta-*.whl "$room/all/wheel"
    for file in "$folder"/*.deb; do dpkg-deb -R "$file" "$room/all/$(basename "$file")"; done
    find "$room/all" -name '*.gz' -exec gunzip {} +
    ! grep -rlaF -e "$PWD" -e "$kit/" -e "${room%/*}/tmp." "$room/all"
}

# What an earlier run left goes first, so that a run that fails leaves nothing that could be taken for a release.
rm -f "$folder"/gofnjerta-*.tar.* "$folder"/gofnjerta-*.whl "$folder"/*.deb "$folder/PROVED.txt" "$folder/THIRD-PARTY.txt" "$folder/SHA256SUMS"
if [ "$mode" = pack ]; then
    : > "$room/checked"
else
    [ -z "$(git status --porcelain)" ] || stop 'the checkout has changes that no commit has'
    if [ "$mode" = tests ]; then take_tested; else prove; fi
    count_proved
fi
hold_version
write_proved > "$room/PROVED.txt"
python3 scripts/lib/third-party.py enet_relay enet_c > "$room/THIRD-PARTY.txt"
pack_archive
pack_wheel
bash scripts/by-hand/package-relay.sh "$folder" "$program"
bash scripts/by-hand/package-c.sh "$folder" "$archive"
cp "$room/PROVED.txt" "$room/THIRD-PARTY.txt" "$folder/"
names_no_folder || stop 'these files name a folder of this machine'
[ "$mode" = pack ] || pack_libraries
(cd "$folder" && sha256sum -- *.tar.* *.whl *.deb PROVED.txt THIRD-PARTY.txt > SHA256SUMS)
echo "made: $folder/SHA256SUMS"
