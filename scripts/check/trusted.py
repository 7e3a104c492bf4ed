#!/usr/bin/env python3
"""Counts the definitions of specs/ that a reader of a clause must read: those that it names, those that these name, and so on.

    scripts/check/trusted.py NAME..   with NAME as crate.file.definition: enet_fleet.Transcript.IsOnEachFront
    scripts/check/trusted.py          the clauses that docs/PROOFS.md and docs/HEADLINE.md speak of
    scripts/check/trusted.py --write  the same, as the table of docs/HEADLINE.md, behind its line '<!-- trusted -->'

For each it prints how many definitions of the repository there are, their lines without comments, and in how many files and crates. Types
that the Rust code declares, and the kit's words, aren't counted. A name is looked up in its file, then among its imports, as the prover
does; names bound by a lambda, a field or a left-hand side are passed over.
"""
import glob
import os
import re
import sys

# What it is, the contract that says it, and the definitions of its clause.
CLAUSES = [
    ("the page", "`Fleet::play`, `headline`", ["enet_fleet.Transcript.IsOnEachFront"]),
    ("of it, what isn't of fleets", "", ["law_headline.Page.IsHeadline"]),
    ("the lists that are kept", "`Fleet::run`, `headline`", ["enet_fleet.Headline.HasHeadline"]),
    ("and that they are the events'", "`Fleet::run`, `steps`", ["enet_fleet.Headline.HasHeadline", "enet_fleet.Fleets.Runs"]),
    ("what comes once nothing is lost", "`World::calm`, `progress`", ["enet_world.Progress.GetsThrough"]),
    ("that a connection isn't lost", "`World::calm`, `stands`", ["enet_world.Stands.BothStand"]),
    ("that who was connected is so still, or its user knows", "`World::calm`, `told`", ["enet_world.Ended.TellsEnds"]),
    ("that all arrives, or an end is reported", "`World::calm`, `all`", ["enet_world.Ended.ComesOrEnds"]),
    ("that a peer left behind is reported", "`World::calm`, `alone`", ["enet_world.Alone.TellsAlone"]),
    ("each peer of a host as one end", "`each_peer_of_a_host` of `law_one_end`", ["law_one_end.Hosts.EachIsOneEnd"]),
    ("each peer of a fleet's hosts", "`Fleet::play`, `ends`", ["enet_fleet.Ends.EachIsOneEnd"]),
    ("that no unsequenced packet is taken twice", "`Fleet::play`, `once`", ["enet_fleet.Once.NoneIsTakenTwice"]),
    ("what has nothing left to send was delivered", "`World::delivered`", ["enet_world.Delivered.HasDelivered"]),
    ("the same in a fleet", "`Fleet::delivered`", ["law_headline.Delivered.HasDelivered"]),
    ("at each moment of running services", "`services_in_order`, `at_each_moment`", ["law_service.EndToEnd.AtEachMoment"]),
    ("by what services were given and told", "`services_in_order`, `services`", ["law_service.EndToEnd.EndToEnd"]),
    ("between their game threads", "`services_in_order`, `threads` and `all_shown`", ["law_service.EndToEnd.EndToEnd", "law_service.EndToEnd.BetweenThreads", "law_service.Queues.EachLifeShows"]),
    ("through the relay", "`chat_server_in_order`", ["law_relay.Chat.EachHasServed", "law_relay.Chat.OfChatThreads"]),
]

TABLE = """<!-- trusted -->
| What | Contract, clause | Definitions | Lines | Crates |
|---|---|---|---|---|
"""

DEFINITION = re.compile(r"(?:pub )?(?:unfoldable |abbrev |record |data )*(?:pub )?([A-Za-z_]\w*)\b")
BEGINS = re.compile(r"(?:pub |unfoldable |abbrev |record |data )")
WORD = re.compile(r"(?<![\w.])([A-Za-z_]\w*(?:\.[A-Za-z_]\w*)*)")


class Module:
    """A file of specs/: what it defines, and what it imports under which name."""

    def __init__(self, path):
        crate, rest = path.split("crates/", 1)[1].split("/specs/", 1)
        self.name = "Rattle.%s.specs.%s" % (crate, rest[: -len(".antt")].replace("/", "."))
        self.path, self.imports, self.aliases, self.bodies = path, {}, {}, {}
        lines = open(path, encoding="utf-8").read().split("\n")
        at = 0
        while at < len(lines):
            line = lines[at]
            at += 1
            if line.startswith(("use ", "pub use ")):
                self.take_import(line)
            elif BEGINS.match(line) and not line.startswith("pub mod"):
                body = [line]
                while at < len(lines) and lines[at].strip() and not lines[at].startswith("--") and not BEGINS.match(lines[at]):
                    body.append(lines[at])
                    at += 1
                self.bodies[DEFINITION.match(line).group(1)] = body

    def take_import(self, line):
        listed = re.match(r"(?:pub )?use (\S+?)\.\{(.*)\}\s*$", line)
        if listed:
            for item in filter(None, (word.strip() for word in listed.group(2).split(","))):
                name, _, other = item.partition(" as ")
                self.imports[(other or name).strip()] = listed.group(1) + "." + name.strip()
            return
        whole = re.match(r"(?:pub )?use (\S+) as (\S+)", line)
        if whole:
            self.aliases[whole.group(2)] = whole.group(1)


def read_all(root):
    modules = {}
    for path in sorted(glob.glob(os.path.join(root, "crates/*/specs/**/*.antt"), recursive=True)):
        module = Module(path)
        modules[module.name] = module
    return modules


def constructors(modules):
    """The definition of data that each constructor is of."""
    found = {}
    for module in modules.values():
        for name, body in module.bodies.items():
            if re.match(r"(pub )?data", body[0]):
                for line in body[1:]:
                    case = re.match(r"\s+(?:pub )?([A-Za-z_]\w*)\s*:", line)
                    if case:
                        found[module.name + "." + case.group(1)] = module.name + "." + name
    return found


def bound_names(name, body, text):
    bound = set()
    for names in re.findall(r"λ\s+([^.]*)\.", text):
        bound |= set(re.findall(r"[A-Za-z_]\w*", re.sub(r"\(([^:()]*):[^()]*\)", r"\1", names)))
    for names in re.findall(r"\(([A-Za-z_0-9 ]+?)\s*:(?!:)", text):
        bound |= set(names.split())
    if not re.match(r"(pub )?(record|data)", body[0]):
        for line in body[1:]:
            if line.startswith(name + " ") and "=" in line:
                bound |= set(re.findall(r"(?<![.\w])([a-z_]\w*)(?!\.)", line.split(" = ")[0][len(name):]))
    return bound


def named_by(modules, of_data, full):
    module, name = modules[full.rsplit(".", 1)[0]], full.rsplit(".", 1)[1]
    body = module.bodies[name]
    text = "\n".join(re.sub(r"--.*", "", line) for line in body)
    bound = bound_names(name, body, text)
    for word in WORD.findall(text):
        head, *rest = word.split(".")
        if head in module.aliases and rest:
            yield resolve(modules, of_data, module.aliases[head] + "." + rest[0])
        elif head not in bound and head in module.imports:
            yield resolve(modules, of_data, module.imports[head])
        elif head not in bound and head != name and head in module.bodies:
            yield module.name + "." + head


def resolve(modules, of_data, full):
    """The definition that a name stands for, through the files that hand it on."""
    for _ in range(4):
        module, _, name = full.rpartition(".")
        if full in of_data:
            return of_data[full]
        if module not in modules or name in modules[module].bodies:
            return full
        full = modules[module].imports.get(name, full)
    return full


def closure(modules, of_data, starts):
    seen, left = set(), list(starts)
    while left:
        full = left.pop()
        module, _, name = full.rpartition(".")
        if full in seen or module not in modules or name not in modules[module].bodies:
            continue
        seen.add(full)
        left.extend(named_by(modules, of_data, full))
    return seen


def full_name(short):
    crate, rest = short.split(".", 1)
    return "Rattle.%s.specs.%s" % (crate, rest)


def main():
    root = os.path.join(os.path.dirname(os.path.abspath(__file__)), "..", "..")
    modules = read_all(root)
    of_data = constructors(modules)
    write = sys.argv[1:] == ["--write"]
    rows = []
    for title, contract, names in [(name, "", [name]) for name in sys.argv[1:] if not write] or CLAUSES:
        starts = [full_name(name) for name in names]
        for start in starts:
            module, _, name = start.rpartition(".")
            if module not in modules or name not in modules[module].bodies:
                sys.exit("there is no definition " + start)
        found = closure(modules, of_data, starts)
        bodies = [(full.rpartition(".")[0], modules[full.rpartition(".")[0]].bodies[full.rpartition(".")[2]]) for full in found]
        lines = sum(len(body) for _, body in bodies)
        files = {module for module, _ in bodies}
        crates = {module.split(".")[1] for module in files}
        print("%s: %d definitions, %d lines, %d files, %d crates" % (title, len(found), lines, len(files), len(crates)))
        rows.append("| %s | %s | %d | %s | %d |" % (title, contract, len(found), format(lines, ","), len(crates)))
    if write:
        path = os.path.join(root, "docs/HEADLINE.md")
        before, rest = open(path, encoding="utf-8").read().split(TABLE, 1)
        after = rest.split("\n\n", 1)[1] if "\n\n" in rest else ""
        open(path, "w", encoding="utf-8").write(before + TABLE + "\n".join(rows) + "\n" + ("\n" + after if after else ""))


if __name__ == "__main__":
    main()
