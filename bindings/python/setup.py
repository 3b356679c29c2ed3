"""Puts the library beside the modules, if ../build.sh has built it; the rest is said by pyproject.toml."""
from pathlib import Path

from setuptools import Distribution, setup
from setuptools.command.build_py import build_py

LIBRARY = Path(__file__).resolve().parent.parent / "target/libgimli.so"


class BuildWithLibrary(build_py):
    def run(self):
        super().run()
        if LIBRARY.is_file():
            self.copy_file(str(LIBRARY), self.build_lib)


class WithLibrary(Distribution):
    def has_ext_modules(self):
        """Whether what is built is for one kind of machine."""
        return LIBRARY.is_file()


setup(cmdclass={"build_py": BuildWithLibrary}, distclass=WithLibrary)
