#!/usr/bin/env python3
"""Leaves only some of the trials: `keep-trials.py FOLDER NAME..`, for check-trials.sh.

FOLDER is the source of the crate that it makes of trials/, a NAME a module there (check_peer) or a trial (trials_of_a_peer). Other trials
are deleted, and so are modules that have none left and that none which is left uses. The status is 1 if a NAME is neither.
"""
import glob
import os
import re
import sys

# A trial, with the comment above it; `rt fmt` ends a function by a brace at the beginning of a line.
TRIAL = re.compile(r"^(?:///.*\n)*#\[test\]\nfn (\w+)\(.*?^}\n\n?", re.M | re.S)


def read(path):
    with open(path, encoding="utf-8") as file:
        return file.read()


def write(path, text):
    with open(path, "w", encoding="utf-8") as file:
        file.write(text)


def main():
    source, names = sys.argv[1], set(sys.argv[2:])
    library = read(f"{source}/lib.rt")
    modules = re.findall(r"^mod (\w+);", library, re.M)
    files = {module: [f"{source}/{module}.rt", *glob.glob(f"{source}/{module}/**/*.rt", recursive=True)] for module in modules}
    trials = {module: {trial for path in files[module] for trial in TRIAL.findall(read(path))} for module in modules}
    unknown = names - set(modules) - set().union(*trials.values())
    if unknown:
        print(f"FAILED names: there is no module and no trial {' '.join(sorted(unknown))}")
        return 1
    kept = [module for module in modules if module in names or trials[module] & names]
    for module in kept:
        kept += {used for path in files[module] for used in re.findall(r"\bcrate::(\w+)::", read(path)) if used in files} - set(kept)
    for module in kept:
        for path in files[module] if module not in names else []:
            write(path, TRIAL.sub(lambda found: found[0] if found[1] in names else "", read(path)))
    for module in set(modules) - set(kept):
        library = library.replace(f"#[cfg(test)]\nmod {module};\n", "")
        for path in files[module]:
            os.remove(path)
    write(f"{source}/lib.rt", library)
    return 0


if __name__ == "__main__":
    sys.exit(main())
