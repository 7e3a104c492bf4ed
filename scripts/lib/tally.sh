# What scripts of the tests count; they source it at the top of the repository.
passed=0
failed=0

# $1 failed, since $2.
fail() {
    echo "FAILED $1: $2"
    failed=$((failed + 1))
}

# $1 failed, since $2 differs from what is wanted: shows how, with the wanted file $3 and the file $4.
differ() {
    fail "$1" "$2 differs:"
    diff -u "$3" "$4" | head -n 40
}

# The same of two texts: the wanted one $3 and the one that is there, $4.
differ_text() {
    differ "$1" "$2" <(printf '%s\n' "$3") <(printf '%s\n' "$4")
}

# What went wrong by the file $1: a compiler's first error and what follows it, or the last twenty lines if there is none.
first_error() {
    grep -m 1 -A 19 -E '(^|[ :])(fatal )?error(\[[^]]*\])?:' "$1" || tail -n 20 "$1"
}
