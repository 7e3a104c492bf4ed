# What scripts that build tests of the layer over a network and a clock in memory share (c/tests/memory_net.h); they source it at the top of the
# repository.

# Builds the program $1 of the test $2 of c/tests by the compiler $3, over the libraries that build-c.sh has left in the folder $4, as they are;
# or with the words after them, and the layer compiled anew with these. What the layer and the core ask of the system is renamed in their
# objects, so that memory_net.c answers it.
build_in_memory() {
    local program=$1 test=$2 compiler=$3 made=$4/lib parts source name renamed=()
    shift 4
    for name in socket close bind getsockname getsockopt setsockopt ioctl recvfrom sendto sendmsg poll clock_gettime getrandom getentropy \
        malloc calloc realloc aligned_alloc; do
        renamed+=(--redefine-sym "$name=net_$name")
    done
    parts=$(mktemp -d) || return 1
    if [ $# -eq 0 ]; then
        cp "$made/libgofnjerta_enet.a" "$parts/whole.a" || return 1
    else
        for source in c/enet/*.c c/gofnjerta.c; do
            "$compiler" -std=gnu11 -O1 -g -Ic "$@" -c "$source" -o "$parts/$(basename "$source" .c).o" || return 1
        done
        cp "$made/libgofnjerta.a" "$parts/rest.a" && ar d "$parts/rest.a" gofnjerta.o || return 1
    fi
    for source in "$parts"/*; do objcopy "${renamed[@]}" "$source" || return 1; done
    source=("$parts"/*.o)
    [ $# -gt 0 ] || source=()
    "$compiler" -std=gnu11 -O1 -g -Wall -Wextra -Ic "$@" "c/tests/$test.c" c/tests/memory_net.c "${source[@]}" "$parts"/*.a -o "$program" || return 1
    rm -r "$parts"
}
