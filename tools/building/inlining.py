"""The functions that are inlined wherever they are called: those of the program that its sources mark so.

The module that the kit has for a try bears no such marks, and without them clang leaves most of what a step and a move call as calls.
"""
import re

from building import kit
from building.sources import CODE_PARTS, files_of

MARK = "#[inline(always)]"
METHODS = re.compile(r"impl\b(?:<[^>]*>)? (?:(\w+)\S* for )?(\w+)")
FUNCTION = re.compile(r" *(?:pub(?:\([a-z]+\))? )?(?:const )?fn (\w+)")
# What the module adds to the name of a function that is generic.
TYPES = re.compile(r"::<.*")
# With the marks of cf_timed clang takes three times as long, with those of the others a quarter longer; the commands that alone need
# them rarely take long.
LEFT_OUT = {"cf_timed", "run_ledger", "cf_log", "cf_conform", "cf_audit", "cf_debug"}


def marked_in(source):
    """The functions that a source marks: a method after its type, and after the trait where it is one of a trait, as the module has it."""
    methods_of, is_marked = "", False
    for line in source.read_text().splitlines():
        function = FUNCTION.match(line)
        if methods := METHODS.match(line):
            methods_of = f"{methods[2]}{methods[1] or ''}::"
        elif line == "}":
            methods_of = ""
        elif line.strip() == MARK:
            is_marked = True
        elif function:
            if is_marked:
                yield f"{methods_of}{function[1]}"
            is_marked = False


def short(name):
    """The crate and the name of a function of the module, whose name has the modules between the two as well."""
    parts = TYPES.sub("", name).split("::")
    is_method = any(part[:1].isupper() for part in parts[-2:-1])
    return parts[0], "::".join(parts[-2:] if is_method else parts[-1:])


def words(folder, module, needed):
    """The arguments by which clang inlines the marked functions of the module that are defined in these crates."""
    marked = {(crate, name) for crate in {*needed} - LEFT_OUT for source in files_of(crate, CODE_PARTS) for name in marked_in(source)}
    defined = kit.llvm("llvm-nm", "--defined-only", "--format=just-symbols", module).splitlines()
    attributes = folder / "attributes.csv"
    attributes.write_text("".join(f"{name},alwaysinline\n" for name in defined if short(name) in marked))
    return ["-mllvm", f"-forceattrs-csv-path={attributes}"]
