"""The kit's `rt` as a module, and the libraries that a checkout has of what was proved."""
from __future__ import annotations

import functools
import importlib.machinery
import importlib.util
import os
import shutil
import sys

HERE = os.path.dirname(os.path.dirname(os.path.abspath(__file__)))
# Beside a library that `rt ci` made: the stamp of the text that it was made of. It is not the kit's own file, by which other commands of the kit would take it.
NOTE = "proved_of"


def load(top):
    """The module of the kit's `rt`, for the checkout at this place."""
    loader = importlib.machinery.SourceFileLoader("rt", os.path.realpath(shutil.which("rt")))
    made = importlib.util.module_from_spec(importlib.util.spec_from_loader("rt", loader))
    sys.modules["rt"] = made
    loader.exec_module(made)
    # A crate's stamp is made of those below it; without this it would be made anew for each path that leads down to one.
    made.rtlib.Crate.stamp = functools.cache(made.rtlib.Crate.stamp)
    made.Crate.allowed = made.handles_of(top)
    return made


def keeps(rt):
    """Whether the kit keeps beside itself what `rt ci` proved."""
    return hasattr(rt, "Kept")


def libraries(rt, top):
    """The crates of a checkout that others may stand on, each after those below it."""
    return sorted((it for it in rt.rtlib.crates_below(top) if not it.is_program), key=lambda it: len(it.below()))


def read(path):
    try:
        with open(path, encoding="utf-8") as it:
            return it.read()
    except FileNotFoundError:
        return ""


def write(path, text):
    with open(path, "w", encoding="utf-8") as it:
        it.write(text)


def is_noted(crate):
    """Whether the last gate left a library of the crate's present text."""
    return os.path.isdir(crate.rlib) and read(f"{crate.folder}/out/rlib/{NOTE}") == crate.stamp()


def has_library(crate):
    """Whether the crate has a library of its present text that the kit's own commands take."""
    return os.path.isfile(f"{crate.folder}/out/rlib/stamp") and crate.is_built()


def keep_library(crate):
    """Has the kit's own commands take the library that stands there for one of the crate's present text."""
    write(f"{crate.folder}/out/rlib/stamp", crate.stamp())
