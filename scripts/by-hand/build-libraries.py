"""build-libraries.py JOBS [CRATE..]: proves the libraries that these crates stand on, JOBS at once, so that `rt check` finds them.

`rt check` and `rt lib` prove what is below a crate one library after another, and a second `rt` waits for the first. Here each library is begun
once all below it stand, first those with most above them. What an earlier check kept is taken, and a library whose text and whose
libraries' text didn't change isn't proved again; so `cp -a` of a crate's out/rlib serves another checkout of the same text, too. With no
CRATE it proves all libraries. No `rt` may work in the checkout meanwhile, and its text may not change. What each said is in out/libraries/.
Prints each with its seconds; the status is 1 if one isn't proved, and those above it aren't tried then.
"""

import copy
import os
import sys
import time
from concurrent.futures import FIRST_COMPLETED, ThreadPoolExecutor, wait

sys.dont_write_bytecode = True
TOP = os.path.dirname(os.path.dirname(os.path.dirname(os.path.abspath(__file__))))
sys.path.insert(0, f"{TOP}/scripts/lib")
from kit import load_rtlib  # noqa: E402


def build(crate):
    """Proves and builds a library. Returns whether it is proved, and the seconds that took."""
    begun = time.time()
    crate = copy.copy(crate)
    with open(f"{TOP}/out/libraries/{crate.name}.txt", "w+", encoding="utf-8", errors="replace") as crate.out:
        try:
            status = crate.build_rlib(["--jobs", "1"], anew=False)
        except SystemExit:
            status = 1
    return status == 0, time.time() - begun


def needed(crates, names):
    """Returns the libraries that stand below these crates, and themselves; all where none is named."""
    chosen = [it for it in crates if not names or it.name in names]
    found = {it.name: it for crate in chosen for it in [*crate.below(), crate]}
    return {name: it for name, it in found.items() if not it.is_program and not it.is_static}


def main():
    if len(sys.argv) < 2 or not sys.argv[1].isdigit():
        sys.exit("usage: build-libraries.py JOBS [CRATE..]")
    rtlib = load_rtlib()
    rtlib.guarded()
    crates = rtlib.crates_below(TOP)
    left = needed(crates, sys.argv[2:])
    lines = {name: it.count(rb"\n") for name, it in left.items()}
    above = {name: lines[name] + sum(lines[it.name] for it in left.values() if name in {dep.name for dep in it.below()}) for name in left}
    held = rtlib.lock([*left.values()])
    os.makedirs(f"{TOP}/out/libraries", exist_ok=True)
    proved, running, is_well = set(), {}, True
    jobs = int(sys.argv[1])
    with ThreadPoolExecutor(jobs) as pool:
        while left or running:
            ready = [name for name, it in left.items() if all(dep.name in proved for dep in it.below())]
            for name in sorted(ready, key=lambda it: -above[it])[: jobs - len(running)]:
                running[pool.submit(build, left.pop(name))] = name
            if not running:
                break
            for task in wait(running, return_when=FIRST_COMPLETED).done:
                name, (is_proved, seconds) = running.pop(task), task.result()
                print(f"{name}: {'proved' if is_proved else 'NOT PROVED'}, {seconds:.0f} seconds", flush=True)
                is_well = is_well and is_proved
                if is_proved:
                    proved.add(name)
    for it in held:
        os.close(it)
    sys.exit(0 if is_well else 1)


main()
