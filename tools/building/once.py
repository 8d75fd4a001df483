#!/usr/bin/env python3
"""Runs rt with the words that it is given, has it compute the checksum of each crate once, keep no work of a library that has none,
and build a library without what no other crate can cite.

Some kits' rt computes a crate's checksum, and the list of the crates below it, again for each path that leads down to it. Where many
crates are above one another that takes longer than the proofs. The sources do not change while a crate is proved here, so once is enough.

What a check keeps, a few functions at a time, helps the next check of the crate, and makes a first one longer by a fifth to a half. So a
library is proved over what earlier checks kept where there is such, and otherwise at once.

A crate loads what the libraries below it hold. Of a function other crates can cite that it meets its contract, and not how that was
proved. So a library holds its statements alone, as under `rt ci`, but where it is proved over kept work: the compiler does not do both.

Where the kit's rt is made in another way, it is run as it is.
"""
import functools
import importlib.machinery
import importlib.util
import os
import shutil
import sys


def once(method):
    """The method of a crate, which answers by the crate's directory what it answered first."""
    known = {}

    @functools.wraps(method)
    def answer(crate):
        if crate.folder not in known:
            known[crate.folder] = method(crate)
        found = known[crate.folder]
        return list(found) if isinstance(found, list) else found

    return answer


def over_kept(keeps):
    """The answer to whether the build of the library in this directory takes and keeps work, where `keeps` says whether the kit's can."""
    return lambda: os.path.isdir("out/incremental") and keeps()


def with_statements(call):
    """A crate's call of the compiler, which has a library hold what other crates can cite of it, and no more, where nothing is kept of it."""

    @functools.wraps(call)
    def answer(crate, *words):
        builds_library = words[1:2] == ("build",) and words[-1].endswith(".rlib") and "--incremental" not in words
        return call(crate, *words, *["--statements"] * builds_library)

    return answer


def module_of(program):
    """The program, which is a Python program, as a module."""
    loader = importlib.machinery.SourceFileLoader("rt_of_the_kit", program)
    module = importlib.util.module_from_spec(importlib.util.spec_from_loader(loader.name, loader))
    loader.exec_module(module)
    return module


def main():
    program = os.path.realpath(shutil.which("rt") or sys.exit("cfpp: rt is not there: the Rattle kit has to be installed"))
    words = sys.argv[1:]
    sys.argv[0] = program
    try:
        kit = module_of(program)
        crate = kit.rtlib.Crate
        crate.stamp, crate.below = once(crate.stamp), once(crate.below)
        kit.rtlib.libraries_keep = over_kept(kit.rtlib.libraries_keep)
        if "--statements" in kit.rtlib.help_of("build"):
            crate.call = with_statements(crate.call)
    except (AttributeError, SyntaxError, ValueError):
        os.execv(program, [program, *words])
    sys.exit(kit.main(words))


if __name__ == "__main__":
    main()
