"""Puts the shared object of the library for C into the wheel, which is then one for this platform.

It is the one that `make -C embed` has built, or the file that MEHDALUNG_LIBRARY names."""
import os
import shutil
from pathlib import Path

from setuptools import Distribution, setup
from setuptools.command.build_py import build_py

try:
    from setuptools.command.bdist_wheel import bdist_wheel
except ImportError:  # setuptools before 70.1
    from wheel.bdist_wheel import bdist_wheel

BUILT = Path(__file__).resolve().parent.parent / "build" / "libmehdalung.so"


class BuildWithLibrary(build_py):
    def run(self):
        super().run()
        if getattr(self, "editable_mode", False):
            return  # the package finds the library of its repository
        library = Path(os.environ.get("MEHDALUNG_LIBRARY") or BUILT)
        if not library.is_file():
            raise SystemExit(f"There is no {library}. Build it by `make -C embed`, or let "
                             "MEHDALUNG_LIBRARY name the shared object.")
        shutil.copy(library, Path(self.build_lib) / "mehdalung" / "libmehdalung.so.1")


class WheelOfPlatform(bdist_wheel):
    def get_tag(self):
        """Any Python 3 loads it by ctypes, so only the platform matters."""
        return "py3", "none", super().get_tag()[2]


class OfPlatform(Distribution):
    def has_ext_modules(self):
        return True


setup(distclass=OfPlatform,
      cmdclass={"build_py": BuildWithLibrary, "bdist_wheel": WheelOfPlatform})
