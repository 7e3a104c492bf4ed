# Prints what side-by-side.sh measured, as tables: each file SIDE.WHAT.RUN has lines `NUMBER: FIGURE`.
BEGIN { OFS = " | " }

FNR == 1 {
    count = split(FILENAME, path, "/")
    split(path[count], part, ".")
    side = part[1]; what = part[2]; run = part[3]
    if (what == "time" && run > runs) runs = run
}

{
    number = $0; sub(/:.*/, "", number)
    figure = $0; sub(/^[^:]*: /, "", figure)
    if (!(figure in known)) { known[figure] = 1; figures[++many] = figure }
    value[side, what, figure, run] = number + 0
}

# The median of all runs of a side for a figure, in nanoseconds.
function median(side, figure,    i, j, sorted, next_one) {
    for (i = 1; i <= runs; i++) {
        next_one = value[side, "time", figure, i]
        for (j = i; j > 1 && sorted[j - 1] > next_one; j--) sorted[j] = sorted[j - 1]
        sorted[j] = next_one
    }
    return (sorted[int((runs + 1) / 2)] + sorted[int(runs / 2) + 1]) / 2
}

function over(a, b) { return b > 0 ? sprintf("%.2f", a / b) : "none" }

function cell(what, figure) { return value["before", what, figure, 1] ", " value["after", what, figure, 1] }

END {
    print "\n| figure | before, µs | after, µs | after / before |\n|---|---|---|---|"
    for (f = 1; f <= many; f++) {
        name = figures[f]
        was[name] = median("before", name)
        is[name] = median("after", name)
        printf "| %s | %.1f | %.1f | %s |\n", name, was[name] / 1000, is[name] / 1000, over(is[name], was[name])
    }
    print "\n| first 1000 / last 1000 | before | after |\n|---|---|---|"
    for (f = 1; f <= many; f++) {
        name = figures[f]
        if (!((name ", first 1000") in known)) continue
        first = name ", first 1000"; last = name ", last 1000"
        print "| " name, over(was[first], was[last]), over(is[first], is[last]) " |"
    }
    print "\n| bytes: before, after | copied | allocated | held more at the end |\n|---|---|---|---|"
    for (f = 1; f <= many; f++) {
        name = figures[f]
        if (name ~ /, (first|last) 1000$/) continue
        print "| " name, cell("copied", name), cell("allocated", name), cell("held", name) " |"
    }
}
