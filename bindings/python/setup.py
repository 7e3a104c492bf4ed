"""The wheel has the shared library in it: $GOFNJERTA_DIR/lib/libgofnjerta.so.0, of the folder that scripts/by-hand/build-c.sh makes. It serves
any Python 3, since the package has no extension module, on Linux on x86-64 with glibc 2.34 or later."""

import os
import shutil

from setuptools import Distribution, setup
from setuptools.command.build_py import build_py
from wheel.bdist_wheel import bdist_wheel

LIBRARY = "libgofnjerta.so.0"


class WithLibrary(build_py):
    def run(self):
        super().run()
        if self.editable_mode:
            return
        folder = os.environ.get("GOFNJERTA_DIR")
        if not folder:
            raise SystemExit("GOFNJERTA_DIR isn't set: it is the folder that scripts/by-hand/build-c.sh makes")
        shutil.copy(os.path.join(folder, "lib", LIBRARY), os.path.join(self.build_lib, "gofnjerta", LIBRARY))


class OfOnePlatform(Distribution):
    def has_ext_modules(self):
        return True


class ForAnyPython(bdist_wheel):
    def get_tag(self):
        return "py3", "none", "manylinux_2_34_x86_64"


setup(distclass=OfOnePlatform, cmdclass={"build_py": WithLibrary, "bdist_wheel": ForAnyPython})
