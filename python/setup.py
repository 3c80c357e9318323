"""Builds the package with the shared library inside, where `make -C c` has made that. All else says pyproject.toml."""

import os
import re
import shutil

from setuptools import Distribution, setup
from setuptools.command.build_py import build_py

HERE = os.path.dirname(os.path.abspath(__file__))
LIBRARY = os.path.join(HERE, "..", "c", "out", "libkhe.so")
CHANGES = os.path.join(HERE, "..", "CHANGELOG.md")


def version():
    """The newest day in the list of changes."""
    with open(CHANGES, encoding="utf-8") as file:
        return ".".join(re.search(r"^## (\d+)-0*(\d+)-0*(\d+)$", file.read(), re.MULTILINE).groups())


class BuildWithLibrary(build_py):
    """Copies the library beside the modules."""

    def run(self):
        super().run()
        place = os.path.join(self.build_lib, "khe", "libkhe.so")
        # An earlier build may have left one.
        if os.path.exists(place):
            os.remove(place)
        if os.path.exists(LIBRARY):
            shutil.copyfile(LIBRARY, place)


class Khe(Distribution):
    """A package with the library inside is of this kind of machine alone."""

    def has_ext_modules(self):
        return os.path.exists(LIBRARY)


setup(version=version(), cmdclass={"build_py": BuildWithLibrary}, distclass=Khe)
