"""Debian's own Python, which has the packages that benches of pitplan need."""
import importlib.util
import os
import sys

PYTHON = "/usr/bin/python3"


def run_by_debian():
    """Runs this bench again by Debian's Python where another one, without its packages, is first on the path."""
    if importlib.util.find_spec("pandas") is None and sys.executable != PYTHON:
        os.execv(PYTHON, [PYTHON, *sys.argv])
