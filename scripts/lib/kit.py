"""What scripts share that work with the kit's own module of crates."""

import functools
import importlib.util
import os
import subprocess
import sys


def load_rtlib():
    """Returns the kit's module that knows crates. A stamp is made once here, where the kit makes those of all below anew each time."""
    page = subprocess.run(["rt", "doc"], check=True, stdout=subprocess.PIPE, text=True).stdout
    spec = importlib.util.spec_from_file_location("rtlib", f"{os.path.dirname(page)}/bin/rtlib.py")
    made = importlib.util.module_from_spec(spec)
    sys.modules["rtlib"] = made
    spec.loader.exec_module(made)
    made.Crate.stamp = functools.cache(made.Crate.stamp)
    return made
