"""The kit to which the command `rt` belongs, and what it knows of the crates of a checkout."""
import contextlib
import functools
import importlib.machinery
import importlib.util
import io
import os
import pathlib
import shutil
import sys


class BuildFault(Exception):
    """Why nothing is built, in a line."""


@functools.cache
def folder():
    """The folder of the kit."""
    found = shutil.which("rt")
    if found is None:
        raise BuildFault("the command rt is not on the path")
    return pathlib.Path(os.path.realpath(found)).parent.parent


@functools.cache
def modules():
    """The module of the kit that knows crates and the words of its commands."""
    loader = importlib.machinery.SourceFileLoader("rtlib", str(folder() / "bin" / "rtlib.py"))
    found = importlib.util.module_from_spec(importlib.util.spec_from_loader("rtlib", loader))
    kept, sys.dont_write_bytecode = sys.dont_write_bytecode, True
    with contextlib.redirect_stdout(io.StringIO()):
        loader.exec_module(found)
    sys.dont_write_bytecode = kept
    return found


def crate(checkout, name):
    """A crate of a checkout. This call works in the folder of the crate from then on, as `rt` does."""
    place = str(pathlib.Path(checkout).resolve() / "crates" / name)
    os.chdir(place)
    return modules().Crate(place, modules().root_above(place) or place, {})


def kept():
    """The words with which a build of a library goes on with what an earlier one of `rt` has proved."""
    return modules().KEPT if modules().libraries_keep() else []


def sources_of_kit(crates):
    """The words that name the sources of the libraries of the kit that these crates use."""
    return modules().kit_sources(name for one in crates for name in one.of_kit)
