#!/usr/bin/env python3
"""Whether documents tell the truth where a script can see it:

- each definition behind *Stated by* in docs/PROTOCOL.md and docs/LAB.md stands in the file that is named there;
- each name in back-quotes of the documents stands somewhere in the repository or is a file of it;
- each file that a document links to is there;
- each commit of measure/results is one of this history (told as passed over where the history isn't there);
- README's commands name files that are there, and its command for all tests is the one that .ci/run runs;
- the code that docs/USING.md shows stands in an example or in a trial, which the tests compile and run;
- the counts of definitions that docs/HEADLINE.md and docs/PROOFS.md tell are those of scripts/check/trusted.py;
- docs/ERRORS.md has a row for each refusal and for each stop of the code;
- docs/OPERATING.md has a row for each option of `serve`, with the range and the default that the code has;
- the version that `enet_relay --version` tells, in the code and in its definition, is the one of the file VERSION, and so are those of
  c/gofnjerta.h, that README's files have and that CHANGELOG.md begins with;
- c/gofnjerta_layout.h has each structure and field of c/gofnjerta.h, in order, and the sizes that crates/enet_c proves of its own;
- docs/PERF.md begins with the line that names the start, which never changes, and its table has the counts of bench/instructions.txt;
- only crates/enet_wire/src/journaled.rt names what has the system take or give datagrams, as SECURITY.md says; what else names `libc::net` or
  `mio::net` is in NETWORK;
- no document has more of the habits that scripts/check/tics.py counts, in 100 words, than scripts/check/tics.txt says;
- the plots are what measure/draw.py makes of measure/results.

The last line is 'N passed, M failed'; the status is 1 where one fails.
"""
import csv
import glob
import os
import re
import subprocess
import sys

DOCUMENTS = ["README.md", "CONTRIBUTING.md", "SECURITY.md", *sorted(glob.glob("docs/*.md"))]
# Names that stand nowhere in the repository by their nature: the kit's, the system's and the reference library's own.
ELSEWHERE = re.compile(
    r"rt( .*)?|rattle.*|logic [0-9a-f]+|SHORTER_PROOFS\.md|FIRST_PROOFS\.md|docs/NOT_COVERED\.md|itoa|"
    r"sudo apt .*|tar xf .*|python3 -m venv .*|game/bin/pip .*|editcap .*|tcpdump .*|ss( .*)?|perf.*|valgrind.*|nft.*|ulimit.*|net\..*|[A-Z]\w+=.*|-l\w+|"
    r"ENetChannel|enet_channel|initialize_with_callbacks|peer_throttle|reset_queues|setup_outgoing_command|protocol_command_size|recvmmsg"
)
# Parts of a name that stand for any: `crate/specs/File`, `on_*`, `Sound-EVENT`, `example_..`.
STANDS_FOR = re.compile(r"\*|\.\.|\b(crate|CRATE|NAME|FILE|File|EVENT|FOLDER|COMMIT)\b")
WORD = re.compile(r"[A-Za-z_][A-Za-z0-9_'-]*")
# The first line of docs/PERF.md: the commit to which all its ratios go back.
START = "The start: da651a18bcd2843b7b451577cdc4f47cd6cc9a6e"

# What names the modules by which the system is asked for sockets: the one file that may name all of them, the listener of the figures for TCP
# alone, and the console, which waits for its input and its output, and reads its input.
NETWORK = {
    "crates/enet_wire/src/journaled.rt": None,
    "crates/enet_metrics/src/pages.rt": {"mio::net::TcpListener", "mio::net::TcpStream"},
    "crates/enet_metrics/src/client.rt": {"mio::net::TcpStream"},
    "crates/enet_console/src/outlet.rt": {"libc::net::POLLOUT", "libc::net::poll"},
    "crates/enet_console/src/input.rt": {"libc::net::POLLIN", "libc::net::poll", "libc::read"},
}
# Crates of the kit that have sockets of their own, and what of its std is one.
WITH_SOCKETS = {"libc", "mio", "tokio", "hyper", "http_server", "os"}
# Calls of `libc` that take any descriptor by its number, so a socket's, too.
BY_NUMBER = {"read", "write", "readv", "writev", "pread", "pwrite", "dup", "dup2", "dup3", "close", "fcntl", "ioctl", "sendfile", "splice"}
SOCKETS = {"UdpSocket", "TcpStream", "TcpListener", "UnixDatagram", "UnixStream", "UnixListener", "*"}


class Counts:
    def __init__(self):
        self.passed = self.failed = 0

    def check(self, holds, what):
        if holds:
            self.passed += 1
        else:
            self.failed += 1
            print(f"FAILED {what}")


def read(path):
    with open(path, encoding="utf-8", errors="replace") as file:
        return file.read()


def paragraphs_with(text, mark):
    """The paragraphs of a text that hold the mark, from it on, each in one line."""
    for part in re.split(r"\n\s*\n|\n(?=[|#-])", text):
        if mark in part:
            yield " ".join(part[part.index(mark) :].split())


def stated(counts):
    """Names behind *Stated by*: a file `crate/specs/File`, a colon, and the names that it has."""
    for document in ("docs/PROTOCOL.md", "docs/LAB.md"):
        for told in paragraphs_with(read(document), "*Stated by*"):
            stated_in(counts, document, told)


def stated_in(counts, document, told):
    """The names of one such paragraph."""
    path = None
    for name in re.findall(r"`([^`]+)`", told):
        if name == "crate/specs/File":
            break
        if "/specs/" in name:
            path = f"crates/{name}.antt"
            counts.check(os.path.isfile(path), f"{document}: {path} isn't there")
        elif path and os.path.isfile(path) and re.fullmatch(r"[\w'-]+", name):
            begins = rf"^\s*((pub|unfoldable|abbrev|record|data|ghost) )*{re.escape(name)}(?![\w'])"
            counts.check(re.search(begins, read(path), re.M), f"{document}: {path} has no {name}")


def text_of_repository():
    """The words of all that is tracked but the documents, and the names of its files and folders."""
    words = set()
    listed = subprocess.run(["git", "ls-files", "-co", "--exclude-standard"], capture_output=True, text=True, check=True).stdout.split("\n")
    for path in filter(os.path.isfile, listed):
        words.update(WORD.findall(path))
        words.update([path, os.path.basename(path), os.path.splitext(os.path.basename(path))[0], *path.split("/")])
        if not path.endswith((".md", ".svg", ".csv")):
            words.update(WORD.findall(read(path)))
    return words


def is_known(name, words, parts):
    """Whether each word of a back-quoted name stands in the repository, or is a part of one up to or from an underscore or a dash."""
    if ELSEWHERE.fullmatch(name):
        return True
    told = WORD.findall(STANDS_FOR.sub(" ", name))
    return all(len(word) <= 2 or word in words or word.strip("_'-") in parts for word in told)


def parts_of(words):
    """The words, and each front and back of one that ends at an underscore or a dash."""
    parts = set(words)
    for word in words:
        for at in (found.start() for found in re.finditer(r"[_-]", word)):
            parts.update((word[:at], word[at + 1 :]))
    return parts


def names(counts):
    words = text_of_repository()
    parts = parts_of(words)
    for document in DOCUMENTS:
        text = re.sub(r"```.*?```", "", read(document), flags=re.S)
        unknown = sorted({name for name in re.findall(r"`([^`\n]+)`", text) if not is_known(name, words, parts)})
        counts.check(not unknown, f"{document}: nothing of the repository has {', '.join(unknown)}")


def links(counts):
    for document in DOCUMENTS:
        text = read(document)
        told = set(re.findall(r"\]\(([^)#:]+)\)", text))
        files = {os.path.join(os.path.dirname(document), path) for path in told}
        files |= set(re.findall(r"(?<![\w/.-])(?:docs|scripts|crates|measure|bench|clients|trials)/[\w/.-]*\w\.\w+", text))
        passed_over = re.compile(r"/out/|docs/NOT_COVERED|\b(CRATE|NAME|FILE)\b")
        missing = sorted(path for path in files if not os.path.exists(path) and not passed_over.search(path))
        counts.check(not missing, f"{document}: {', '.join(missing)} isn't there")


def commits(counts):
    whole = subprocess.run(["git", "rev-parse", "--is-shallow-repository"], capture_output=True, text=True, check=False).stdout.strip()
    if whole != "false":
        print("the history isn't there: the commits of measure/results are passed over")
        return
    told = set()
    for path in glob.glob("measure/results/*.csv"):
        with open(path, newline="", encoding="utf-8") as file:
            rows = list(csv.DictReader(file))
        counts.check(rows and all(row["date"] and row["machine"] for row in rows), f"{path}: a row has no date or machine")
        told.update(word for row in rows for word in re.findall(r"\b[0-9a-f]{7,40}\b", row["commit"]))
    for commit in sorted(told):
        seen = subprocess.run(["git", "cat-file", "-e", commit + "^{commit}"], capture_output=True, check=False)
        counts.check(seen.returncode == 0, f"measure/results: there is no commit {commit}")


def commands(counts):
    """README's lines of commands, without remarks: each names files that are there, and the tests' is the one of .ci/run."""
    shown = [line for line in read("README.md").split("\n") if re.match(r"    (\(cd |bash |scripts/)", line)]
    lines = [re.sub(r"  +#.*", "", line).strip() for line in shown]
    counts.check(lines, "README.md has no commands")
    for line in lines:
        folder = (re.search(r"cd (\S+)", line) or [None, "."])[1]
        paths = [os.path.normpath(os.path.join(folder, path)) for path in re.findall(r"(?<=[ <])[\w./-]+/[\w./-]+\.\w+", line)]
        counts.check(os.path.isdir(folder) and all(map(os.path.exists, paths)), f"README.md: {line} names what isn't there")
    if os.path.exists(".ci/run"):
        run = re.search(r"exec (.+)", read(".ci/run"))
        counts.check(run and run[1] in lines, "README.md hasn't the command that .ci/run runs")


def without_layout(code):
    """Code without what `rt fmt` may set otherwise: white space, and commas behind the last of several."""
    return re.sub(r",(?=[)}\]])", "", re.sub(r"\s", "", code))


def shown(counts):
    """The blocks of docs/USING.md that are no commands."""
    paths = [*glob.glob("crates/example_*/src/*.rt"), *glob.glob("trials/src/**/*.rt.in", recursive=True)]
    compiled = [without_layout(read(path)) for path in paths]
    blocks = re.findall(r"(?:(?<=\n\n)|^)((?:    .*\n|\n(?=    ))+)", read("docs/USING.md"))
    code = [block for block in blocks if not re.match(r"    (\(cd|cc|bash) ", block)]
    counts.check(code, "docs/USING.md shows no code")
    for block in code:
        counts.check(
            any(without_layout(block) in text for text in compiled),
            f"docs/USING.md: no example and no trial has\n{block}",
        )


def trusted(counts):
    """What a reader of a clause must trust: so many definitions, so many lines."""
    said = subprocess.run([sys.executable, "scripts/check/trusted.py"], capture_output=True, text=True, check=False).stdout
    told = re.findall(r"^(.+): (\d+) definitions, (\d+) lines, \d+ files, (\d+) crates", said, re.M)
    counts.check(len(told) > 3, "scripts/check/trusted.py told nothing")
    if len(told) < 4:
        return
    page, _, run, steps = told[:4]
    for name, many, lines, crates in told:
        row = rf"^\| {re.escape(name)} \| .* \| {many} \| {int(lines):,} \| {crates} \|$"
        has_row = re.search(row, read("docs/HEADLINE.md"), re.M)
        counts.check(has_row, f"docs/HEADLINE.md hasn't the row of '{name}' (scripts/check/trusted.py --write)")
    wanted = {
        "docs/HEADLINE.md": f"That is all: {page[1]} definitions, {page[2]} lines.",
        "docs/PROOFS.md": f"| {page[1]} definitions, {page[2]} lines | {run[1]} definitions, {run[2]} lines, and with the clause that ties "
        f"them to the events {steps[1]}, {int(steps[2]):,} |",
    }
    for document, words in wanted.items():
        counts.check(words in read(document), f"{document} hasn't '{words}'")


def start(counts):
    """What docs/PERF.md measures from: its first line says it, for good."""
    first = read("docs/PERF.md").split("\n", 1)[0]
    counts.check(first == START, f"docs/PERF.md: the first line is '{first}', not '{START}'")
    seen = subprocess.run([sys.executable, "scripts/check/perf.py"], capture_output=True, text=True, check=False)
    counts.check(seen.returncode == 0, seen.stdout.strip())


def options_of(source):
    """The options that functions of a source make: a name, the least and the greatest number (or None), and the default (or None)."""
    for body in re.split(r"^(?:pub )?fn ", source, flags=re.M)[1:]:
        named = re.search(r'(?:number\d*|Arg::new)\(alloc, "([\w-]+)"(?:, ([\d_]+), ([\d_]+))?\)', body)
        if named and ".long(" + f'"{named[1]}")' in body or named and named[2]:
            least = re.search(r"range\(([\d_]+)\.\.=([\d_]+)\)", body)
            ends = (named[2], named[3]) if named[2] else least.groups() if least else None
            default = re.search(r'default_value\("([^"]+)"\)|\[default: (\d+)\]', body)
            yield named[1], ends, default and (default[1] or default[2])


def labels(counts):
    """A row for each refusal and each stop, by its label. (E15 is the lab's own.)"""
    document = "docs/ERRORS.md"
    for source, letter in (("refusal", "E"), ("stop", "S")):
        made = re.findall(rf'#\[error\("({letter}\d+ \w+)"\)\]', read(f"crates/enet_codec/src/{source}.rt"))
        told = re.findall(rf"^\| ({letter}\d+ \w+) \|", read(document), re.M)
        counts.check(made and made == [row for row in told if row != "E15 BadScript"], f"{document}: its rows are of {told}, the code has {made}")


def with_commas(digits):
    return f"{int(digits.replace('_', '')):,}" if re.fullmatch(r"[\d_]+", digits) else digits


OTHERS = ("at", "channel", "clients", "connection", "explain", "from", "full", "timeline", "to")


def options(counts):
    """The table of options in docs/OPERATING.md beside what the code has."""
    console = "crates/enet_console/src/"
    made = {}
    for name, ends, default in [*options_of(read(console + "command_line.rt")), *options_of(read(console + "admission.rt"))]:
        made.setdefault(name, (ends, default))
    made = {name: what for name, what in made.items() if name not in OTHERS}
    rows = re.findall(r"^\| (`--[^|]*) \| ([^|]*) \|", read("docs/OPERATING.md"), re.M)
    told = {name: says for cell, says in rows for name in re.findall(r"--([\w-]+)", cell)}
    counts.check(set(made) == set(told), f"docs/OPERATING.md: options of the code or of the table alone: {sorted(set(made) ^ set(told))}")
    for name in set(made) & set(told):
        ends, default = made[name]
        wanted = [f"{with_commas(ends[0])} (?:to|or) {with_commas(ends[1])}"] if ends else []
        wanted += [rf"\({re.escape(with_commas(default))}\)"] if default else []
        counts.check(all(re.search(each, told[name]) for each in wanted), f"docs/OPERATING.md: --{name} has '{told[name]}', the code {made[name]}")


def version(counts):
    """One version: of the file VERSION, of the program, of its contract, of C's header, of README's files and of CHANGELOG.md's newest part."""
    told = read("VERSION").strip()
    for path, marked in (
        ("crates/enet_console/src/versions.rt", rf'^    "{re.escape(told)} \('),
        ("crates/enet_console/specs/Versions.antt", rf'^version = codes "{re.escape(told)}"$'),
    ):
        counts.check(re.search(marked, read(path), re.M), f"{path} hasn't the version {told} of the file VERSION")
    parts = re.findall(r"^#define GOFNJERTA_VERSION_(MAJOR|MINOR|PATCH) (\d+)$", read("c/gofnjerta.h"), re.M)
    wanted = list(zip(("MAJOR", "MINOR", "PATCH"), told.split(".")))
    counts.check(parts == wanted and all(int(part) < 256 for _, part in parts), f"c/gofnjerta.h: its version is {parts}, not {told} of VERSION")
    files = set(re.findall(r"(?:_|gofnjerta-?)(\d+\.\d+\.\d+)[_-]", read("README.md")))
    counts.check(files == {told}, f"README.md names files of {files or 'no version'}, not of {told}")
    newest = re.search(r"^## (\S+)", read("CHANGELOG.md"), re.M)
    counts.check(newest and newest[1] == told, f"CHANGELOG.md doesn't begin with the version {told} of the file VERSION")


def layout(counts):
    """The table of C's structures beside the header that makes them, and beside the sizes that `enet_c` proves."""
    made = []
    for name, body in re.findall(r"^typedef struct (\w+) {(.*?)^} \1;$", re.sub(r"/\*.*?\*/", "", read("c/gofnjerta.h"), flags=re.S), re.M | re.S):
        fields = [field.split()[-1].lstrip("*") for line in body.split(";") for field in line.split(",") if field.strip()]
        made += [(name, ""), *((name, field) for field in fields)]
    table = read("c/gofnjerta_layout.h")
    told = re.findall(r"^GOFNJERTA_(?:STRUCT|FIELD)\((\w+), (?:([a-z]\w*), )?\d+, \d+\);$", table, re.M)
    counts.check(made and made == told, f"c/gofnjerta_layout.h: c/gofnjerta.h or the table alone has {sorted(set(made) ^ set(told)) or 'another order'}")
    proved = re.findall(r"size_of::<Core(\w+)>\(\) == (\d+)", read("crates/enet_c/src/shapes.rt"))
    counts.check(proved, "crates/enet_c/src/shapes.rt proves no sizes")
    for name, size in proved:
        row = f"GOFNJERTA_STRUCT(gofnjerta_{name.lower()}, {size}, "
        counts.check(name == "Secret" or row in table, f"c/gofnjerta_layout.h hasn't '{row}', the size of Core{name}")


def leaves(tree, front=""):
    """The paths of a `use`: of `mio::{net::{A, B as C}, D}` they are mio::net::A, mio::net::B and mio::D."""
    at = tree.find("{")
    if at < 0:
        yield re.sub(r"\s+as\s+\w+$|::self$", "", front + tree.strip())
        return
    parts, depth, begun = [], 0, at + 1
    for place, sign in enumerate(tree):
        depth += (sign == "{") - (sign == "}")
        if (sign == "," and depth == 1) or (sign == "}" and depth == 0):
            parts.append(tree[begun:place])
            begun = place + 1
    for part in filter(str.strip, parts):
        yield from leaves(part, front + tree[:at].strip())


def reached(code):
    """The paths that code names of crates and modules with sockets, in its `use` items and elsewhere."""
    code = re.sub(r"//.*", "", code)
    for used in re.findall(r"\buse\s+([^;]+);", code):
        yield from leaves(" ".join(used.split()))
    yield from re.findall(r"\b(?:libc|mio|tokio|hyper|http_server|os|std)(?:::\w+)+", re.sub(r"\buse\s+[^;]+;", "", code))


def is_socket(path):
    """Whether a path leads to sockets: a module of the kit that has them, a call that takes a descriptor, a whole crate, or a socket of std."""
    parts = path.removeprefix("::").split("::")
    if parts[0] == "std":
        return parts == ["std"] or parts[1] in ("net", "os", "*") and (parts[-1] == "net" or not SOCKETS.isdisjoint(parts))
    if parts[0] == "libc" and not BY_NUMBER.isdisjoint(parts[1:]):
        return True
    return parts[0] in WITH_SOCKETS and (len(parts) == 1 or parts[1] in ("net", "*") or parts[0] not in ("libc", "mio"))


def sockets(counts):
    """Whatever takes or sends a datagram passes the two trusted functions, since nothing else can name a socket."""
    for crate, below in re.findall(r"^(\w+)[^:\n]*:(.*)$", read("crates.txt"), re.M):
        has_some = any(it.startswith(f"crates/{crate}/") for it in NETWORK)
        more = WITH_SOCKETS & set(below.split()) - ({"libc", "mio"} if has_some else set())
        counts.check(not more, f"crates.txt: {crate} stands on {', '.join(sorted(more))}, which has sockets")
        for path in sorted(glob.glob(f"crates/{crate}/src/**/*.rt", recursive=True)):
            told = {it for it in reached(read(path)) if is_socket(it)}
            allowed = NETWORK.get(path, set())
            more = told - (told if allowed is None else allowed)
            if more:
                counts.check(False, f"{path} names {', '.join(sorted(more))}, by which datagrams pass beside the wire's journal")


def habits(counts):
    seen = subprocess.run([sys.executable, "scripts/check/tics.py", "--check"], capture_output=True, text=True, check=False)
    counts.check(seen.returncode == 0, seen.stdout.strip())


def plots(counts):
    drawn = subprocess.run([sys.executable, "measure/draw.py", "--check"], capture_output=True, text=True, check=False)
    counts.check(drawn.returncode == 0, drawn.stdout.strip())


def main():
    os.chdir(os.path.join(os.path.dirname(os.path.abspath(__file__)), "..", ".."))
    counts = Counts()
    for check in (stated, names, links, commits, commands, shown, trusted, start, labels, options, version, layout, sockets, habits, plots):
        check(counts)
    print(f"{counts.passed} passed, {counts.failed} failed")
    return 1 if counts.failed else 0


if __name__ == "__main__":
    sys.exit(main())
