#!/usr/bin/env python3
"""Writes what a binary of this repository carries of others: `third-party.py CRATE..`, on standard output.

Of each library of the kit that these crates stand on, as crates.txt has it, and of those that it uses in turn, it tells what the kit's page
says of its origin and version, and its licence texts as they lie beside it. A text that several have stands once, at the first.
"""
import glob
import os
import re
import subprocess
import sys


def uses():
    """What each crate of crates.txt stands on."""
    table = {}
    with open("crates.txt", encoding="utf-8") as file:
        for line in file:
            head, mark, tail = line.split("#")[0].partition(":")
            if mark:
                table[head.split()[0]] = tail.split()
    return table


def used_by(name, table, kit):
    """What a crate of the repository, or a library of the kit, uses."""
    if name in table:
        return table[name]
    found = set()
    for path in glob.glob(f"{kit}/rattle/{name}/src/**/*.rt", recursive=True):
        with open(path, encoding="utf-8") as file:
            found.update(re.findall(r"^\s*(?:pub )?use ([a-z_]\w*)(?:::|;)", file.read(), re.M))
    return sorted(it for it in found if it not in ("core", "std") and os.path.exists(f"{kit}/rlibs/{it}.rlib"))


def libraries(crates, kit):
    """The libraries of the kit below these crates."""
    table = uses()
    seen, waiting = set(), list(crates)
    while waiting:
        name = waiting.pop()
        if name not in seen:
            seen.add(name)
            waiting.extend(used_by(name, table, kit))
    return sorted(seen - set(table))


def origin(name, kit):
    """What the kit's page says of where a library comes from: its first sentence that names a version."""
    try:
        with open(f"{kit}/rattle/{name}/README.md", encoding="utf-8") as file:
            parts = re.split(r"\n\s*\n|(?<=[.:]) (?=[A-Z])", file.read())
    except OSError:
        return ""
    told = [" ".join(part.split()) for part in parts if re.search(r"\b\d+\.\d+\.\d+\b", part)]
    return (told[0] if told[0].endswith(".") else told[0] + " ..") if told else ""


def main():
    os.chdir(os.path.join(os.path.dirname(os.path.abspath(__file__)), "..", ".."))
    page = subprocess.run(["rt", "doc"], capture_output=True, text=True, check=True).stdout.strip()
    kit = os.path.dirname(page)
    print("What of others is linked into these files: the libraries of the kit Rattle, most of them ports of Rust crates, and their licences.\n")
    shown = {}
    for name in libraries(sys.argv[1:], kit):
        print(f"{'=' * 78}\n{name}\n")
        if origin(name, kit):
            print(f"{origin(name, kit)}\n")
        texts = sorted(glob.glob(f"{kit}/rattle/{name}/LICENSE*") + glob.glob(f"{kit}/rattle/{name}/COPYRIGHT*"))
        if not texts:
            print("A library of the kit's own; no licence text lies beside it.\n")
        for path in texts:
            with open(path, encoding="utf-8") as file:
                text = file.read().strip()
            file_name = os.path.basename(path)
            if text in shown:
                print(f"{file_name}: as at {shown[text]}.\n")
            else:
                shown[text] = f"{name}, {file_name}"
                print(f"{file_name}:\n\n{text}\n")
    print(f"{'=' * 78}\nstd and core are the kit's own, and no licence text lies beside them.")


if __name__ == "__main__":
    main()
