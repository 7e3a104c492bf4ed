# What the scripts that make packages share; they source it at the top of the repository, after making the empty folder `room`. What they write
# depends on the commit, the kit, the compiler and the files that are packed, and on nothing else of the machine or the moment.
SOURCE_DATE_EPOCH=${SOURCE_DATE_EPOCH:-$(git log -1 --format=%ct)}
export SOURCE_DATE_EPOCH LC_ALL=C TZ=UTC
umask 022
version=$(<VERSION)
maintainer='Gofnjerta maintainers <maintainers@users.noreply.gofnjerta.example>'
machine=$(dpkg --print-architecture)
libs=usr/lib/$("${CC:-cc}" -print-multiarch)

# What a user may do with these files: what LICENSE at the top says, and as long as there is none, nothing.
write_copyright() {
    echo "Gofnjerta, by its maintainers"
    echo
    if [ -r LICENSE ]; then
        cat LICENSE
    else
        echo "No licence granted. Whoever holds the copyright has not yet said under which terms others may use, change or pass on this software."
    fi
    echo
    echo "What of others is linked into it, with its licences, stands in THIRD-PARTY.txt."
}

# Of the package $1, version $2, the changelog in Debian's form, with the one entry of this commit.
write_changelog() {
    printf '%s (%s) unstable; urgency=medium\n\n  * Release %s of Gofnjerta. What is new: CHANGELOG.md of the project.\n\n' "$1" "$2" "$version"
    printf ' -- %s  %s\n' "$maintainer" "$(date -u -R -d "@$SOURCE_DATE_EPOCH")"
}

# The least version of the C library that has what the programs and libraries $@ ask of it, as a package's dependency.
depends_on_libc() {
    local least
    least=$(objdump -T "$@" | sed -n 's/.*(GLIBC_\([0-9.]*\)).*/\1/p' | sort -uV | tail -n 1)
    echo "libc6 (>= $least)"
}

# The size of the folder $1 in KiB as Debian counts it: each file rounded up, and one for whatever else is there.
size_of() {
    find "$1" -mindepth 1 -path "$1/DEBIAN" -prune -o -printf '%y %s\n' | awk '{ sum += $1 == "f" ? int(($2 + 1023) / 1024) : 1 } END { print sum + 0 }'
}

# Makes of the folder $room/$1, which has the files as they are to lie below /, the package of its name in the folder $2: of the version $3, in
# the section $4, with the dependency $5 and the short description $6. Lines of the control file beside these, and behind an empty line the long
# description, come by standard input. What DEBIAN/ in that folder has (scripts, conffiles, triggers, shlibs) is taken with it.
make_package() {
    local root=$room/$1 doc=$room/$1/usr/share/doc/$1
    mkdir -p "$root/DEBIAN" "$doc"
    write_copyright > "$doc/copyright"
    write_changelog "$1" "$3" | gzip -9n > "$doc/changelog.gz"
    cp "$room/THIRD-PARTY.txt" "$doc/"
    {
        printf 'Package: %s\nVersion: %s\nArchitecture: %s\nMaintainer: %s\nInstalled-Size: %s\nSection: %s\nPriority: optional\n' \
            "$1" "$3" "$machine" "$maintainer" "$(size_of "$root")" "$4"
        [ -z "$5" ] || printf 'Depends: %s\n' "$5"
        awk -v short="$6" 'text { print " " $0; next } /^$/ { print "Description: " short; text = 1; next } { print }'
    } > "$root/DEBIAN/control"
    (cd "$root" && find . -path ./DEBIAN -prune -o -type f -printf '%P\0' | sort -z | xargs -0 md5sum) > "$root/DEBIAN/md5sums"
    find "$root" -exec touch -h -d "@$SOURCE_DATE_EPOCH" {} +
    dpkg-deb --root-owner-group -Zxz --threads-max=1 --build "$root" "$2/$1_$3_$machine.deb" > /dev/null
    echo "made: $2/$1_$3_$machine.deb"
}

# What a debugger or the linker alone reads of the program or library $1 goes.
strip_file() {
    case $1 in
        *.a) strip --strip-debug --enable-deterministic-archives "$1" ;;
        *) strip --strip-unneeded --remove-section=.comment --remove-section=.note "$1" ;;
    esac
}

# The manual of the program $1, a page for it and one for each of its commands, in the folder $2.
write_manuals() {
    local command page
    mkdir -p "$room/help" "$2"
    for command in '' lab serve inspect demo; do
        page=enet_relay${command:+-$command}
        printf '#!/bin/sh\nexec %q %s "$@"\n' "$1" "$command" > "$room/help/$page"
        chmod 755 "$room/help/$page"
        help2man --no-info --source="Gofnjerta $version" --manual='Gofnjerta' --version-string="$version" \
            --name="$(manual_name "$command")" "$room/help/$page" > "$2/$page.1"
    done
}

# What the page of the command $1 is headed with.
manual_name() {
    case $1 in
        lab) echo 'two hosts of ENet 1.3, a network between them, and lines that say what happens' ;;
        serve) echo 'a server for ENet 1.3 that relays chat' ;;
        inspect) echo 'what datagrams of ENet 1.3 say' ;;
        demo) echo 'a server and its clients in one process' ;;
        *) echo 'a proved host for ENet 1.3' ;;
    esac
}

# The program that docs/C.md shows, and the same in Python, as files in the folder $1.
write_examples() {
    mkdir -p "$1"
    awk '/^```c$/ { on = !seen; seen = 1; next } /^```$/ { on = 0 } on' docs/C.md > "$1/echo.c"
    cp bindings/echo.py "$1/echo.py"
}
