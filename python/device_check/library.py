"""The shared library for commands that run in the repository; an installed module finds the installed one by itself."""

import os
import subprocess
import sys
from pathlib import Path

from yoktvarim.library import VARIABLE

from .failure import Failure

_ROOT = Path(__file__).resolve().parent.parent.parent
_MADE = _ROOT / "target/staticlib/libyoktvarim.so"


def find_library() -> None:
    """In the repository, has the library proved and built where it is missing or a source is newer, and names it to yoktvarim."""
    if os.environ.get(VARIABLE) or not (_ROOT / "crates.txt").exists():
        return
    if subprocess.run([_ROOT / "tools/is_current", _MADE]).returncode != 0:
        if subprocess.run([_ROOT / "tools/library"], stdout=sys.stderr).returncode != 0:
            raise Failure("the library is not built")
    os.environ[VARIABLE] = str(_MADE)
