"""Which Pythons there are for a check: one that has the packages that it needs, and others to try the syntax with."""
from __future__ import annotations

import importlib.util
import os
import shutil
import subprocess
import sys
from pathlib import Path

VERSIONS = ("3.9", "3.10", "3.11", "3.12", "3.13")
PACKAGE = Path(__file__).resolve().parents[2] / "python"
# Debian's packages are for Debian's Python.
SYSTEM = "/usr/bin/python3"


def has(name: str) -> bool:
    """Whether this Python has a package."""
    return importlib.util.find_spec(name) is not None


def prefer(*names: str) -> None:
    """Goes on with Debian's Python, if it has these packages and this one has not all of them."""
    if all(map(has, names)) or not os.path.exists(SYSTEM) or os.path.realpath(SYSTEM) == os.path.realpath(sys.executable):
        return
    asked = "import " + ", ".join(names)
    if subprocess.run([SYSTEM, "-c", asked], capture_output=True, check=False).returncode == 0:
        os.execv(SYSTEM, [SYSTEM, *sys.argv])


def others() -> dict[str, str]:
    """The Pythons of these versions that are here, by version. Of those that pyenv has each is asked for by its version."""
    if shutil.which("pyenv"):
        known = subprocess.run(["pyenv", "versions", "--bare"], capture_output=True, text=True, check=False).stdout.split()
        os.environ["PYENV_VERSION"] = ":".join(["system", *known])
    found = {}
    for version in VERSIONS:
        path = shutil.which(f"python{version}")
        if path and subprocess.run([path, "-c", ""], capture_output=True, check=False).returncode == 0:
            found[version] = path
    return found
