#!/usr/bin/env python3
"""How often each document has habits that make a reader stop, in 100 words.

    scripts/check/tics.py           a table: words, each habit's count, and the sum in 100 words
    scripts/check/tics.py HABIT     where a habit stands, by its name in that table
    scripts/check/tics.py --check   fails where a document's rate is above the one in scripts/check/tics.txt; the last line is 'N passed, M failed'
    scripts/check/tics.py --write   lowers that record to what is there: a document and its rate a line, rounded up to a tenth, and 0.7 at least

A document that the record doesn't name may have 1.0. Code, indented lines and what stands in back-quotes don't count; tables do, but not
for long sentences. The count is a fence against falling back, no judge: a good third of what it finds is right as it stands.
"""
import glob
import math
import os
import re
import sys

RECORD = "scripts/check/tics.txt"
NEW = 1.0
# A lower rate isn't asked of any: some of what is found is right.
LEAST = 0.7
# A sentence of more words is long.
LONG = 35
# Where a sentence, a cell of a table or a paragraph begins.
BEGINS = r"(?:^|(?<=[.!?:] )|(?<=\| ))"
# A name, what it finds, and in the comment what to write instead.
HABITS = {
    # 'if' for a condition, 'when' for a time
    "where": r"\b[Ww]here (?:an?|all|both|each|it|neither|no|nobody|none|nothing|one|some|so|that (?:is|isn't|was)|there|they|this)\b",
    # the noun first
    "what": BEGINS + r"(?:Such|Those that|What|Whatever|Who|Whoever) (?!is\b[^.]*\?)[a-z]",
    # subject, verb, object
    "of": BEGINS + r"(?:At|Beside|By|In|Of|To) (?:all|data|each|it|such|that|them|these|this|those|what|which)\b",
    # a call returns, a program logs or prints, a peer is sent
    "tell": r"\b(?:tell|tells|told)\b(?! apart)",
    # is, is in, is listed
    "stand": r"\b(?:stand|stands|stood)\b(?! in for)",
    # is sent, is resent, returns, amounts to
    "goes": r"\b(?:c[oa]mes? (?:by|of|to|out|with)|goes (?:by|in|on to|out|to|with)|goes? again|went again)\b",
    # 'only', before what it limits
    "alone": r"(?<!let )\balone\b",
    # the noun again
    "that of": r"\b(?:that|those|the ones?) of\b",
    # except, instead of, because
    "but for": r"\b(?:but for|for want of|in (?:the )?place of|save for)\b",
    # the number's name
    "so many": r"\b[Ss]o many\b",
    # nothing, or 'also' before the verb
    "too": r", (?:also|too)\b",
    # two sentences
    "long": None,
}


def documents():
    """The documents that are read, by their paths."""
    return [path for path in ("README.md", "CONTRIBUTING.md", "CHANGELOG.md", "SECURITY.md") if os.path.exists(path)] + sorted(glob.glob("docs/*.md"))


def prose_of(text):
    """A text without its code, with `x` for each name, and each paragraph and item of a list in one line."""
    text = re.sub(r"^```.*?^```", "", text, flags=re.M | re.S)
    text = re.sub(r"^    .*$", "", text, flags=re.M)
    text = re.sub(r"`[^`]*`", "`x`", text)
    text = re.sub(r"^ *(?:[-*]|\d+\.) +", "\n\n", text, flags=re.M)
    return re.sub(r"(?<=[^\n])\n(?=[^\n|#])", " ", text)


def found(habit, prose):
    """Each place of a habit, with some words around it."""
    if HABITS[habit] is None:
        sentences = re.split(r"(?<=[.!?]) +|\n+", re.sub(r"^\|.*$", "", prose, flags=re.M))
        return [sentence for sentence in sentences if len(sentence.split()) > LONG]
    places = re.finditer(HABITS[habit], prose, re.M)
    return [prose[max(0, place.start() - 40) : place.end() + 40].replace("\n", " ") for place in places]


def read(path):
    with open(path, encoding="utf-8") as file:
        return file.read()


def counted(path):
    """How many words a document has, and how often each habit."""
    text = read(path)
    prose = prose_of(text)
    return len(text.split()), [len(found(habit, prose)) for habit in HABITS]


def rate(words, counts):
    """How many habits in 100 words, rounded up to a tenth."""
    return math.ceil(1000 * sum(counts) / max(words, 1)) / 10


def show():
    print("| Document | words | " + " | ".join(HABITS) + " | sum | in 100 words |")
    print("|---" * (len(HABITS) + 4) + "|")
    for path in documents():
        words, counts = counted(path)
        print(f"| {path} | {words} | " + " | ".join(map(str, counts)) + f" | {sum(counts)} | {100 * sum(counts) / max(words, 1):.2f} |")


def recorded():
    """The rate of each document that the record names."""
    lines = [line.split() for line in read(RECORD).split("\n") if line and not line.startswith("#")]
    return {path: float(most) for path, most in lines}


def check():
    passed = failed = 0
    most = recorded()
    for path in documents():
        now = rate(*counted(path))
        if now <= most.get(path, NEW):
            passed += 1
        else:
            failed += 1
            print(f"FAILED {path}: {now} habits in 100 words, {most.get(path, NEW)} on record: scripts/check/tics.py shows which")
    print(f"{passed} passed, {failed} failed")
    return 1 if failed else 0


def write():
    most = recorded() if os.path.exists(RECORD) else {}
    with open(RECORD, "w", encoding="utf-8") as file:
        file.write("# Habits in 100 words that each document has at most (scripts/check/tics.py, which only lowers a rate).\n")
        for path in documents():
            now = max(LEAST, rate(*counted(path)))
            file.write(f"{path} {min(now, most.get(path, now))}\n")
    return 0


def main():
    os.chdir(os.path.join(os.path.dirname(os.path.abspath(__file__)), "..", ".."))
    word = sys.argv[1] if len(sys.argv) == 2 else ""
    if word in HABITS:
        for path in documents():
            for place in found(word, prose_of(read(path))):
                print(f"{path}: {place}")
        return 0
    if word in ("--check", "--write"):
        return check() if word == "--check" else write()
    if len(sys.argv) > 1:
        print(__doc__, file=sys.stderr)
        return 2
    show()
    return 0


if __name__ == "__main__":
    sys.exit(main())
