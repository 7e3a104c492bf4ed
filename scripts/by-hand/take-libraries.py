"""take-libraries.py FROM TO: libraries that `rt ci` or build-libraries.py proved in the checkout FROM, for the checkout TO.

`rt check` builds the libraries below a crate by itself, from nothing, in an hour and more. It takes none that `rt ci` left, since those have no
stamp, which says of which text they are: they fit one another, and no library that a check built. So here each gets a stamp in TO that is newer
than all files of its crate in FROM, where the same text stands in TO, and all below it are taken, too. A library that a check or
build-libraries.py left has a stamp, and is taken if that is of the text. A check in TO then proves only what differs.
It is a help to whoever writes: `rt ci` takes nothing of it. FROM may also be a checkout of a release's commit in which its proved libraries
were unpacked by `tar -xmf`, so that they are newer than its files; they are trusted then.

Waits until no `rt` works in either checkout. Prints how many were taken. It stands on the kit's `rtlib`.
"""

import os
import shutil
import sys

sys.dont_write_bytecode = True
sys.path.insert(0, f"{os.path.dirname(os.path.abspath(__file__))}/../lib")
from kit import load_rtlib  # noqa: E402


def is_left(rtlib, crate):
    """Returns whether `rt ci` left the crate's library, and nothing in its folders was written since; or another proof of this text."""
    if crate.is_built():
        return True
    files = rtlib.files_of(crate.folder)
    newest = max(os.path.getmtime(it) for it in {*files, *map(os.path.dirname, files)})
    has_stamp = os.path.exists(f"{os.path.dirname(crate.rlib)}/stamp")
    return os.path.isdir(crate.rlib) and not has_stamp and os.path.getmtime(crate.rlib) > newest


def take(crate, to):
    """Copies the library of a crate to where the same text stands, with its stamp."""
    room = os.path.dirname(to.rlib)
    shutil.rmtree(room, ignore_errors=True)
    os.makedirs(room)
    shutil.copytree(crate.rlib, to.rlib)
    with open(f"{room}/stamp", "w", encoding="utf-8") as it:
        it.write(to.stamp())


def main():
    if len(sys.argv) != 3 or os.path.samefile(*sys.argv[1:]):
        sys.exit("usage: take-libraries.py FROM TO, two checkouts")
    rtlib = load_rtlib()
    ours, theirs = ({it.name: it for it in rtlib.crates_below(os.path.abspath(top))} for top in sys.argv[1:])
    held = rtlib.lock([*ours.values(), *theirs.values()])
    taken = set()
    for name, crate in sorted(ours.items(), key=lambda it: len(it[1].below())):
        to = theirs.get(name)
        has_below = all(it.name in taken for it in crate.below())
        if to and not to.is_program and has_below and is_left(rtlib, crate) and crate.stamp() == to.stamp():
            take(crate, to)
            taken.add(name)
    for it in held:
        os.close(it)
    print(f"{len(taken)} libraries taken")


main()
