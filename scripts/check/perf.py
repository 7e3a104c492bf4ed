#!/usr/bin/env python3
"""Whether the table 'Now' of docs/PERF.md has the counts of bench/instructions.txt, and their ratios to the first ones (bench/first.txt).

    scripts/check/perf.py           fails where a row differs; the last line is 'N passed, M failed'
    scripts/check/perf.py --write   writes these two columns anew, and above the table the commit that is checked out, whose programs were counted

A row's first cell names its jobs in back-quotes; one that begins with a dash is the first one with another end (`seconds-free`, `-used`).
"""
import os
import re
import subprocess
import sys

DOCUMENT = "docs/PERF.md"
MEASURED = re.compile(r"(\*Now\*: millions of instructions, proved) \(\w+, [\d-]+\)")


def counts(path):
    """The number behind each name of a file."""
    with open(path, encoding="utf-8") as file:
        lines = [line.split() for line in file if line.strip() and not line.startswith("#")]
    return {line[0]: int(line[1]) for line in lines}


def jobs_of(cell, known):
    """The jobs that a row names, each by its whole name."""
    names = re.findall(r"`([^`]+)`", cell)
    ends = [name for name in names if name.startswith("-")]
    fronts = [names[0][: found.start()] for found in re.finditer("-", names[0])]
    whole = [next((front + end for front in fronts if front + end in known), end) for end in ends]
    return [name for name in names if not name.startswith("-")] + whole


def millions(count):
    return f"{count / 1e6:.0f}" if count >= 99_950_000 else f"{count / 1e6:.1f}"


def row_as_counted(cells, now, first):
    """The cells of a row with the columns 'Now' and 'First' as they are to be; None where a job is unknown."""
    jobs = jobs_of(cells[0], now)
    if not all(job in now and job in first for job in jobs):
        return None
    told = "; ".join(millions(now[job]) for job in jobs)
    ratios = "; ".join(f"{now[job] / first[job]:.2f}" for job in jobs)
    return [*cells[:2], told, ratios, *cells[4:]]


def as_counted(lines):
    """Each row of the table with what it is to be (or None), by the number of its line."""
    now, first = counts("bench/instructions.txt"), counts("bench/first.txt")
    begins = next((at for at, line in enumerate(lines) if line.startswith("| Job | Does | Now |")), len(lines))
    rows = {}
    for at in range(begins + 2, len(lines)):
        if not lines[at].startswith("|"):
            break
        cells = row_as_counted([cell.strip() for cell in lines[at].strip("|").split("|")], now, first)
        rows[at] = cells and f"| {' | '.join(cells)} |".replace("|  |", "| |")
    return rows


def same(one, other):
    return re.sub(r"\s", "", one) == re.sub(r"\s", "", other)


def check(lines, rows):
    wrong = [at for at, wanted in rows.items() if wanted is None or not same(lines[at], wanted)]
    for at in wrong:
        print(f"FAILED {DOCUMENT}: '{lines[at]}' isn't '{rows[at]}' (scripts/check/perf.py --write)")
    if not rows:
        print(f"FAILED {DOCUMENT} has no table of jobs")
    failed = len(wrong) + (not rows)
    print(f"{len(rows) - len(wrong)} passed, {failed} failed")
    return 1 if failed else 0


def write(lines, rows):
    for at, wanted in rows.items():
        if wanted and not same(lines[at], wanted):
            lines[at] = wanted
    text = "\n".join(lines)
    commit = subprocess.run(["git", "log", "-1", "--format=%h, %cs", "--abbrev=8"], capture_output=True, text=True, check=True).stdout.strip()
    with open(DOCUMENT, "w", encoding="utf-8") as file:
        file.write(MEASURED.sub(lambda found: f"{found[1]} ({commit})", text))
    return 0


def main():
    os.chdir(os.path.join(os.path.dirname(os.path.abspath(__file__)), "..", ".."))
    with open(DOCUMENT, encoding="utf-8") as file:
        lines = file.read().split("\n")
    rows = as_counted(lines)
    return write(lines, rows) if sys.argv[1:] == ["--write"] else check(lines, rows)


if __name__ == "__main__":
    sys.exit(main())
