#!/usr/bin/env python3
"""Rewrites the LLVM module of an unproved build (bench/count-unproved.sh): `unchecked.py FOLDER.. < IN > OUT`. The run-time checks, the bytes
0xAA that fill fresh variables, and what serves the address sanitizer go. Functions get the hints on inlining (`#[inline(always)]` and so on)
that the sources CRATE/src of these folders have, by the names of crate, type and function."""

import glob
import os
import re
import sys

WORDS = {"always": "alwaysinline", "never": "noinline", None: "inlinehint"}


def owner_of(head):
    """The type of an `impl` block, from what stands behind that word."""
    head = re.sub(r"^<[^{]*?>\s+", "", head.strip()).split(" for ")[-1]
    found = re.match(r"&?(?:mut )?(\w+)", head.strip())
    return found and found[1]


def hints_of(file, crate):
    """The hints of a source file, by crate, type (None outside an `impl` block) and function."""
    hints, owner, hint = {}, None, ""
    with open(file, encoding="utf-8", errors="replace") as lines:
        for line in lines:
            if line.startswith("impl"):
                owner = owner_of(line[4:])
            elif line.startswith("}"):
                owner = None
            if found := re.search(r"#\[inline(?:\((always|never)\))?\]", line):
                hint = WORDS[found[1]]
            elif hint and (found := re.search(r"\bfn (\w+)", line)):
                hints[crate, owner, found[1]], hint = hint, ""
    return hints


def all_hints(folders):
    hints = {}
    for folder in folders:
        for file in glob.glob(f"{folder}/*/src/**/*.rt", recursive=True):
            crate = os.path.relpath(file, folder).split(os.sep)[0]
            hints |= hints_of(file, crate)
    return hints


def with_hint(line, hints):
    """The line that begins a function, with the hint that it has."""
    found = re.match(r'(define [^"]*@"([^"]+)"\(.*\)) (#\d+ .*)', line)
    if not found:
        return line
    name = re.sub("::<.*", "", found[2]).split("::")
    owner = name[-2] if len(name) > 2 else None
    hint = hints.get((name[0], owner, name[-1])) or hints.get((name[0], None, name[-1]))
    return f"{found[1]} {hint} {found[3]}\n" if hint else line


def main():
    hints = all_hints(sys.argv[1:])
    for line in sys.stdin:
        if "call void @llvm.trap()" in line or ("@llvm.memset" in line and "i8 -86" in line):
            continue
        if line.startswith("define"):
            line = with_hint(line, hints)
        elif line.startswith("attributes #"):
            line = re.sub(r' (sanitize_address|"(frame-pointer|probe-stack|stack-probe-size)"="[^"]*")', "", line).replace("{ }", "{ nounwind }")
        sys.stdout.write(line)


main()
