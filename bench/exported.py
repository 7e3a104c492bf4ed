#!/usr/bin/env python3
"""What bench/unproved-archive.sh needs to know of the functions that a crate exports to C.

    exported.py main FOLDER        prints a `main` that calls each of those that the sources in FOLDER have, so that `rt try` compiles them
    exported.py module < IN > OUT  gives them, in the program's LLVM module, the names and the convention by which C calls them, and hides
                                   `main`
"""
import glob
import re
import sys

EXPORTED = re.compile(r'pub extern "C" fn (\w+)\((.*?)\)(?:\s*->[^\n{]*)?\n', re.S)
# What the callers have, by its type; all else that is passed is zero.
GIVEN = {"Global": "alloc", "&mut Handle": "handle", "&mut Coder": "coder"}
HEAD = """
use enet_range_coder::Coder;
use std::alloc::Global;
use std::rt::HostRuntime;
"""
# A structure of 12 bytes comes back in two registers; inside the program it is written where the first parameter points.
RECEIVE = """
define { i64, i32 } @gofnjerta_core_receive(ptr %host, ptr %from, ptr %datagram, i64 %length) #0 {
  %place = alloca { i64, i32 }, align 8
  call void @"enet_c::traffic::gofnjerta_core_receive"(ptr %place, ptr %host, ptr %from, ptr %datagram, i64 %length)
  %told = load { i64, i32 }, ptr %place, align 8
  ret { i64, i32 } %told
}"""


def sources(folder):
    for path in sorted(glob.glob(f"{folder}/*.rt")):
        with open(path, encoding="utf-8") as file:
            yield file.read()


def structures(texts):
    """The fields of each structure that C knows, with their types."""
    found = {}
    for text in texts:
        for name, body in re.findall(r"pub struct (Core\w+) \{(.*?)\n\}", text, re.S):
            found[name] = re.findall(r"pub (\w+): ([^,]+),", body)
    return found


def zero(kind, shapes):
    """A value of this type, all of zeros."""
    if array := re.fullmatch(r"\[u8; (\d+)\]", kind):
        return f"[0; {array[1]}]"
    if kind in shapes:
        return kind + " { " + ", ".join(f"{name}: {zero(inner, shapes)}" for name, inner in shapes[kind]) + " }"
    return "0"


def caller(name, parameters, shapes):
    """A function that calls this one, and the call of it."""
    own, made, passed = [], [], []
    for number, kind in enumerate(parameters):
        if kind in GIVEN:
            own.append(kind)
            passed.append(GIVEN[kind])
        elif reference := re.fullmatch(r"&(mut )?(.*)", kind):
            word, whole = reference[1] or "", reference[2]
            if several := re.fullmatch(r"\[(\w+)\]", whole):
                value, whole = (f"[{zero(several[1], shapes)}]", f"[{several[1]}; 1]") if several[1] in shapes else ("[0; 64]", f"[{several[1]}; 64]")
            else:
                value = zero(whole, shapes)
            made.append(f"    let {word}v{number}: {whole} = {value};\n")
            passed.append(f"&{word}v{number}")
        else:
            passed.append("0")
    head = ", ".join(f"{GIVEN[kind]}: {kind}" for kind in own)
    text = f"fn call_{name}({head}) {{\n{''.join(made)}    let _ = {name}({', '.join(passed)});\n}}\n"
    words = ", ".join(GIVEN[kind] if kind == "Global" else f"&mut {GIVEN[kind]}" for kind in own)
    return text, f"    call_{name}({words});\n"


def print_main(folder):
    texts = list(sources(folder))
    shapes = structures(texts)
    callers = []
    for text in texts:
        for name, words in EXPORTED.findall(text):
            kinds = [word.split(": ", 1)[1].strip() for word in words.replace("\n", " ").split(",") if word.strip()]
            callers.append(caller(name, kinds, shapes))
    print(HEAD)
    print("\n".join(text for text, _ in callers))
    print("fn main(rt: HostRuntime) {\n    let alloc = rt.alloc();")
    print("    let mut handle = Handle::closed(alloc);\n    let mut coder = Coder::new();")
    print("".join(call for _, call in callers) + "}")


def print_module():
    for line in sys.stdin:
        line = re.sub(r'@"enet_c::\w+::(gofnjerta_core_(?!receive)\w+)"', r"@\1", line)
        if re.match(r"define internal .*@gofnjerta_core_\w+\(", line):
            line = line.replace("define internal", "define", 1)
        elif re.match(r"define (?!internal).*@main\(", line):
            line = line.replace("define", "define internal", 1)
        sys.stdout.write(line)
    print(RECEIVE)


if sys.argv[1] == "main":
    print_main(sys.argv[2])
else:
    print_module()
