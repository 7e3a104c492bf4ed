#!/usr/bin/env python3
"""Whether the definitions that documents quote stand in specs/, and the types in src/, as quoted.

    scripts/check/quotes.py           fails where one differs; the last line is 'N passed, M failed'
    scripts/check/quotes.py --write   writes them anew from there

A quote is a line '<!-- crate/specs/File.antt: name name .. -->' and the block of code that follows it. It has the definitions of these
names, without the comments above them, an empty line between each two. Where the file is one of src/ they are types of Rust, without all
comments, and each variant in a line.
"""
import glob
import os
import re
import sys

MARK = re.compile(r"<!-- (\S+\.(?:antt|rt)): (.+) -->")
BEGINS = re.compile(r"(?:pub |unfoldable |abbrev |record |data )")


def definition(path, name):
    """The lines of a definition, up to the next empty line, comment or definition."""
    lines = open(path, encoding="utf-8").read().split("\n")
    begins = re.compile(r"(?:pub |unfoldable |abbrev |record |data )+%s\b" % re.escape(name))
    for at, line in enumerate(lines):
        if begins.match(line):
            end = at + 1
            while end < len(lines) and lines[end].strip() and not lines[end].startswith("--") and not BEGINS.match(lines[end]):
                end += 1
            return "\n".join(lines[at:end])
    return None


def rust_type(path, name):
    """A struct or enum of Rust, without comments, each variant with fields in one line."""
    text = open(path, encoding="utf-8").read()
    found = re.search(r"^pub (?:struct|enum) %s \{\n.*?^\}" % re.escape(name), text, re.M | re.S)
    if not found:
        return None
    bare = re.sub(r"^\s*//.*\n", "", found.group(0), flags=re.M)
    return re.sub(r"^(    \w+ \{)\n(.*?)^    \},", lambda m: m.group(1) + " " + " ".join(m.group(2).split()).rstrip(",") + " },", bare, flags=re.M | re.S)


def main():
    root = os.path.join(os.path.dirname(os.path.abspath(__file__)), "..", "..")
    os.chdir(root)
    write = sys.argv[1:] == ["--write"]
    passed = failed = 0
    for document in sorted(glob.glob("docs/*.md") + ["README.md"]):
        text = open(document, encoding="utf-8").read()
        lines, out, at = text.split("\n"), [], 0
        while at < len(lines):
            mark = MARK.fullmatch(lines[at])
            out.append(lines[at])
            at += 1
            if not mark:
                continue
            path = os.path.join("crates", mark.group(1))
            find = rust_type if path.endswith(".rt") else definition
            quoted = [find(path, name) if os.path.exists(path) else None for name in mark.group(2).split()]
            if None in quoted or lines[at] != "```":
                print("FAILED %s: %s has no such definition, or no block follows" % (document, mark.group(0)))
                failed += 1
                continue
            end = lines.index("```", at + 1)
            wanted = "\n\n".join(quoted).split("\n")
            if lines[at + 1 : end] == wanted:
                passed += 1
            elif not write:
                print("FAILED %s: %s differs from %s" % (document, mark.group(2), path))
                failed += 1
            out += ["```"] + wanted + ["```"]
            at = end + 1
        if write:
            open(document, "w", encoding="utf-8").write("\n".join(out))
    print("%d passed, %d failed" % (passed, failed))
    sys.exit(1 if failed else 0)


if __name__ == "__main__":
    main()
