# Of the lines that a lesson's page shows, indented, the first that isn't the next of the script's lines, or behind it, with its answer:
# for lessons in check-rows.sh.
function fits(shown, real) {
    return substr(shown, length(shown) - 1) == ".." ? index(real, substr(shown, 1, length(shown) - 2)) == 1 : shown == real
}
{ line[NR] = $1; answer[NR] = $2 }
END {
    at = 1
    while ((getline text < shown) > 0) {
        if (text !~ /^    [a-z]/) continue
        count++
        split(substr(text, 5), part, /  +/)
        while (at <= NR && !(fits(part[1], line[at]) && fits(part[2], answer[at]))) at++
        if (at++ > NR) { print text; exit }
    }
    if (count < 3) print "no lines are shown"
}
