"""The command `ptides` of a wheel: it runs the launcher that the wheel has, and companions by this Python."""
from __future__ import annotations

import os
import shutil
import sys

from ptides import program


def main() -> int:
    """Goes on as the launcher."""
    launcher = program.HOME / "ptides"
    if not program.is_program(launcher):
        print(f"ptides: there is no launcher {launcher}", file=sys.stderr)
        return 70
    # A companion is run by the first python3 on the path, and that has to be one that finds this package.
    if shutil.which("python3") != sys.executable:
        os.environ["PATH"] = os.pathsep.join([os.path.dirname(sys.executable), os.environ.get("PATH", os.defpath)])
    os.execv(launcher, [str(launcher), *sys.argv[1:]])
