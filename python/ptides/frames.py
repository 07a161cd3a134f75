"""pandas, which only what has Series and DataFrames needs."""
from __future__ import annotations

import sys
from typing import Any

from ptides.program import Fault


def pandas() -> Any:
    """The package pandas."""
    try:
        import pandas as found
    except ImportError as fault:
        raise Fault(f"Series and DataFrames need pandas, which this Python, {sys.executable}, doesn't have: pip install pandas; or Debian's "
                    "python3-pandas, which a virtual environment has if it was made with --system-site-packages") from fault
    return found
