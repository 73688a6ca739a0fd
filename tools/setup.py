"""Builds the package, with the page of an event: as it was built here, or else by esbuild."""
import pathlib
import subprocess
import sys

from setuptools import setup
from setuptools.command.build_py import build_py

HERE = pathlib.Path(__file__).resolve().parent
PAGE = HERE / "src/aprsbook_tools/data/event.html"
BUILD = HERE.parent / "build/page.py"


class BuildWithPage(build_py):
    """Builds the modules, and the page where it isn't there."""

    def run(self) -> None:
        if not PAGE.is_file() and BUILD.is_file():
            subprocess.run([sys.executable, str(BUILD), "event", str(PAGE)], check=True)
        super().run()


setup(cmdclass={"build_py": BuildWithPage})
