#!/usr/bin/env python3
"""How many functions of each crate are proved, as the prover counts them: `count-proved.py LOG`, over a checkout in which `rt ci` has passed.

LOG is what that run said. Of a crate that it took from an earlier run it says no number. A library has the functions in its file `mir.json`, which
`rt ci` left: those that the code writes, which is what the prover counts. Where LOG has the number, too, the two must be equal. Of a program or static
library that was taken from an earlier run out/counted.json has what was said when it was proved: `count-proved.py --note LOG` writes down there what
LOG says of programs, under the kit's sum of the crate, all below it and the kit (scripts/test.sh does, behind each gate that passed). One without
a note is checked here once more, alone, over the libraries below it. Prints `CRATE NUMBER`, lowest crates first,
and behind it what else that is of note the prover says of the crate (`axioms=1`). The status is 1 where a number isn't to be had, or two differ.
It stands on the kit's `rtlib`.
"""

import concurrent.futures
import json
import os
import re
import subprocess
import sys

sys.dont_write_bytecode = True
from kit import load_rtlib  # noqa: E402

NOTES = "out/counted.json"
PROVED = re.compile(r"^logic=proved functions=(\d+)(.*)$", re.M)


def told_in(log):
    """What a log says of each crate: the number, and the words behind it."""
    found = {}
    for part in re.split(r"^== ", log, flags=re.M)[1:]:
        head, _, rest = part.partition("\n")
        # A crate's tests have a part of their own, whose head has more words.
        if re.fullmatch(r"\w+", head):
            for line in PROVED.finditer(rest):
                found[head] = (int(line[1]), line[2])
    return found


def in_library(crate):
    """How many functions of the crate's own code its library has: no destructors, declarations or closures' parts, which the prover makes."""
    with open(f"{crate.rlib}/toolchain/mir.json", encoding="utf-8") as file:
        names = {entry[0] for entry in json.load(file)}
    return sum(not ("Destruct++" in name or "::fn::" in name or name.endswith("+decl")) for name in names)


def checked(rtlib, crate):
    """What the prover says of the crate alone, over the libraries that `rt ci` left below it."""
    words = [rtlib.RATTLE, "check", *crate.words(["--jobs", "1"], keeps=False)]
    ran = subprocess.run(words, cwd=crate.folder, stdin=subprocess.DEVNULL, stdout=subprocess.PIPE, stderr=subprocess.STDOUT, text=True, errors="replace", check=False)
    lines = list(PROVED.finditer(ran.stdout))
    if ran.returncode or not lines:
        sys.exit(f"{crate.name} isn't proved: {ran.stdout[-600:]}")
    return int(lines[-1][1]), lines[-1][2]


def noted():
    """What was noted of programs: by the sum of each the number, and the words behind it."""
    if not os.path.exists(NOTES):
        return {}
    with open(NOTES, encoding="utf-8") as file:
        return {stamp: tuple(said) for stamp, said in json.load(file).items()}


def note(crates, told):
    """Notes what a log says of programs, beside what was noted before."""
    kept = noted() | {it.stamp(): told[it.name] for it in crates if it.name in told and (it.is_program or it.is_static)}
    os.makedirs(os.path.dirname(NOTES), exist_ok=True)
    with open(NOTES, "w", encoding="utf-8") as file:
        json.dump(kept, file, indent=1, sort_keys=True)


def count(rtlib, crate, told, kept):
    """The number of a crate's functions, and what else is said of it."""
    if crate.is_program or crate.is_static:
        return told or kept.get(crate.stamp()) or checked(rtlib, crate)
    number = in_library(crate)
    if told and told[0] != number:
        sys.exit(f"{crate.name}: the prover counts {told[0]} functions, and its library has {number}")
    return told or (number, "")


def main():
    is_note = sys.argv[1:2] == ["--note"]
    if len(sys.argv) != 2 + is_note:
        sys.exit("usage: count-proved.py [--note] LOG")
    with open(sys.argv[-1], encoding="utf-8") as file:
        told = told_in(file.read())
    os.chdir(os.path.join(os.path.dirname(os.path.abspath(__file__)), "..", ".."))
    rtlib = load_rtlib()
    crates = rtlib.crates_below(os.getcwd())
    if is_note:
        note(crates, told)
        return
    kept = noted()
    with concurrent.futures.ThreadPoolExecutor(os.cpu_count()) as pool:
        for crate, (number, rest) in zip(crates, pool.map(lambda it: count(rtlib, it, told.get(it.name), kept), crates)):
            print(crate.name, number, *re.findall(r"\b(?:axioms|foreign)=\d+", rest))


if __name__ == "__main__":
    main()
