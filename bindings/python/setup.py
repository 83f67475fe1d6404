"""Builds the package with a library that it can load, or not at all. The file that PUFFGRIT_LIBRARY names goes into the package."""

import os
import runpy
import shutil
from pathlib import Path

from setuptools import Distribution, setup
from setuptools.command.build_py import build_py

PACKAGE = Path(__file__).resolve().parent / "puffgrit"
NAMED = Path(os.environ.get("PUFFGRIT_LIBRARY", ""))


class BuildWithLibrary(build_py):
    def run(self):
        try:
            runpy.run_path(str(PACKAGE / "_c.py"))["load"]()
        except ImportError as error:
            raise SystemExit(f"puffgrit isn't installed: {error}") from None
        super().run()
        if NAMED.is_file() and not self.editable_mode:
            shutil.copy(NAMED, Path(self.build_lib) / "puffgrit" / "libpuffgrit.so")


class PlatformDistribution(Distribution):
    """A wheel with a library is for one platform."""

    def has_ext_modules(self):
        return NAMED.is_file() or (PACKAGE / "libpuffgrit.so").is_file()


setup(cmdclass={"build_py": BuildWithLibrary}, distclass=PlatformDistribution)
