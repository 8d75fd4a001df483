"""Makes the WebAssembly module of the proved program: the LLVM module that the kit compiles it from, for another target."""
import os
import pathlib
import shutil
import subprocess
import sys

from making import page, retarget

PROGRAM = page.TOP / "crates" / "cfpp"
BESIDE = ("heap", "system", "helpers")
EXPORTS = ("page_main", "page_begin", "page_room", "page_word", "page_file", "page_input", "page_bytes", "page_size")
# As much as Linux gives a process.
STACK = 8 << 20
# The program's status where it is called without words.
WITHOUT_WORDS = 122
TARGET = ("--target=wasm64-unknown-unknown", "-mcpu=lime1", "-ffunction-sections", "-fdata-sections", "--no-default-config", "-c")
# Integers and conversions that WebAssembly has no instruction for become code in place of calls.
EXPANDED = ("-mllvm", "-expand-div-rem-bits=64", "-mllvm", "-expand-fp-convert-bits=64")
# What the linked module may use: what clang's lime1 uses.
FEATURES = ("memory64", "bulk-memory", "sign-ext", "nontrapping-float-to-int", "mutable-globals", "multivalue")


def kit():
    rt = shutil.which("rt") or sys.exit("web/build: the Rattle kit is needed, whose command is rt")
    return pathlib.Path(rt).resolve().parent.parent


def tool(name):
    return kit() / "toolchain" / "bin" / name


def run(*words, **how):
    subprocess.run([str(word) for word in words], check=True, **how)


def words_of_build():
    """The words by which `rt run` has the program built, over what earlier checks kept."""
    sys.path.insert(0, str(kit() / "bin"))
    import rtlib

    os.chdir(PROGRAM)
    return rtlib.Crate(str(PROGRAM), str(page.TOP), {}).words(["--jobs", "1"]) + rtlib.KEPT


def toolchain_that_keeps(folder):
    """The kit's toolchain, with a clang that first keeps the LLVM module that it is handed."""
    (folder / "bin").mkdir()
    (folder / "lib").symlink_to(kit() / "toolchain" / "lib")
    for name in ("ld.lld", "llvm-ar", "rattle-x64"):
        (folder / "bin" / name).symlink_to(tool(name))
    wrapper = folder / "bin" / "clang"
    wrapper.write_text(f'#!/bin/sh\n[ -f module.bc ] && cp module.bc "{folder}/module.bc"\nexec "{tool("clang")}" "$@"\n')
    wrapper.chmod(0o755)


def build_program():
    """Proves and builds the program, where that has not been done."""
    run(page.TOP / "tools" / "prove")
    # What it left may have been moved away since. Where it is there, this only runs the program, without words.
    words = [sys.executable, str(page.TOP / "tools" / "building" / "once.py"), "run"]
    built = subprocess.run(words, cwd=PROGRAM, stdin=subprocess.DEVNULL, capture_output=True, text=True, check=False)
    if built.returncode != WITHOUT_WORDS:
        sys.exit(f"{built.stdout}{built.stderr}web/build: the program could not be built")


def proved(folder):
    """The LLVM module of the proved program, for a processor of which the code asks nothing."""
    build_program()
    toolchain_that_keeps(folder)
    words = [*words_of_build(), "--cpu", "x86-64", "--backend", "llvm", "--toolchain", folder]
    run(kit() / "bin" / "rattle", "build", *words, "-o", folder / "cfpp.o", cwd=PROGRAM)
    return folder / "module.bc"


def compiled(folder, bitcode):
    """The objects of the program and of what stands beside it, for WebAssembly with addresses of 64 bits."""
    text = folder / "module.ll"
    run(tool("clang"), "--target=x86_64-unknown-linux-gnu", "-S", "-emit-llvm", "-x", "ir", "-Xclang", "-disable-llvm-passes", bitcode, "-o", text)
    text.write_text(retarget.retargeted(text.read_text()))
    objects = [folder / "program.o"]
    # The page may have 600,000 bytes. With -O2 the module is a seventh larger, and no move was measured to be faster.
    run(tool("clang"), *TARGET, *EXPANDED, "-Os", "-x", "ir", text, "-o", objects[0])
    for name in BESIDE:
        objects.append(folder / f"{name}.o")
        run(tool("clang"), *TARGET, "-O2", "-fwrapv", "-ffreestanding", "-nostdinc", "-x", "c", page.WEB / "wasm" / f"{name}.c", "-o", objects[-1])
    return objects


def linked(folder, objects):
    """The module, which imports nothing. A stack that overflows leaves the memory, and so stops the call."""
    wide, lowered = folder / "wide.wasm", folder / "cfpp.wasm"
    flags = ("-flavor", "wasm", "-mwasm64", "--no-entry", "--stack-first", "-z", f"stack-size={STACK}", "--gc-sections", "-s")
    run(tool("ld.lld"), *flags, *(f"--export={name}" for name in EXPORTS), *objects, "-o", wide)
    # An address stays a word of 64 bits; only where memory is reached its low half is taken.
    run("wasm-opt", *(f"--enable-{name}" for name in FEATURES), "--memory64-lowering", "-Os", wide, "-o", lowered)
    return lowered.read_bytes()


def made(folder):
    if not shutil.which("wasm-opt"):
        sys.exit("web/build: wasm-opt is needed: apt-get install binaryen")
    return linked(folder, compiled(folder, proved(folder)))


def said_by(*words):
    return subprocess.run(words, check=True, capture_output=True, text=True).stdout.strip()


def git(*words):
    return said_by("git", "-C", str(page.TOP), *words)


def origin():
    """What the module was made from: the last commit that changed a source of it, the kit, and the checksum of the sources."""
    sources = [str(path) for path in page.sources()]
    commit = git("log", "-1", "--format=%H", "--", *sources)
    if git("status", "--porcelain", "--", *sources):
        commit += ", with changes"
    return {"commit": commit, "kit": said_by("rt", "version"), "sources": page.sum_of_sources()}
