"""Finds the shared library and the functions in it."""

import ctypes
import functools
import os
import subprocess
from pathlib import Path
from typing import Any, Iterator

# The variable that names the library's file; with it nothing else is tried.
VARIABLE = "YOKTVARIM_LIBRARY"
NAME = "libyoktvarim.so.0"


class LibraryNotFound(ImportError):
    """The shared library cannot be loaded."""


class LibraryMismatch(RuntimeError):
    """The shared library that was found is not the one that this module speaks to."""


def places() -> Iterator[str]:
    """Where the library may be: beside this module, in the prefix it was installed to, where the loader looks, or where pkg-config says."""
    here = Path(__file__).resolve()
    yield str(here.parent / NAME)
    # PREFIX/share/yoktvarim/python/yoktvarim/library.py
    if here.parts[-5:-2] == ("share", "yoktvarim", "python"):
        yield str(here.parents[4] / "lib" / NAME)
    yield NAME
    from . import __version__  # here, since the package imports this module while it is imported itself

    wanted = f"yoktvarim = {__version__}"
    try:
        asked = subprocess.run(["pkg-config", "--variable=libdir", wanted], stdout=subprocess.PIPE, stderr=subprocess.DEVNULL)
    except OSError:
        return
    if asked.returncode == 0:
        # pkg-config quotes the spaces of a folder that a package was unpacked to, and not those of an install.
        yield os.path.join(os.fsdecode(asked.stdout).rstrip("\n").replace("\\ ", " "), NAME)


@functools.lru_cache(maxsize=None)
def library() -> ctypes.CDLL:
    """The library, loaded once."""
    named = os.environ.get(VARIABLE)
    told = []
    for place in [named] if named else places():
        if place != NAME and not os.path.exists(place):
            told.append(f"{place}: no such file")
            continue
        try:
            return ctypes.CDLL(place)
        except OSError as error:
            told.append(str(error))
    raise LibraryNotFound(
        f"{NAME} is not found. Install it with `tools/install PREFIX` in a checkout of Yoktvarim, and name its file, "
        f"PREFIX/lib/{NAME}, in {VARIABLE}; or name PREFIX/lib in LD_LIBRARY_PATH, or PREFIX/lib/pkgconfig in PKG_CONFIG_PATH. "
        f"Tried: " + "; ".join(told)
    )


class Function:
    """A function as include/yoktvarim.h declares it, by the types of its arguments; it is looked for at the first call."""

    def __init__(self, name: str, *types: Any) -> None:
        self._name, self._types, self._found = name, types, None

    def __call__(self, *values: Any) -> int:
        """Its answer's number."""
        if self._found is None:
            try:
                self._found = getattr(library(), self._name)
            except AttributeError:
                raise LibraryMismatch(f"{library()._name} has no function {self._name}") from None
            self._found.argtypes = self._types
            self._found.restype = ctypes.c_uint32
        return self._found(*values)
