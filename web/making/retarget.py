"""Makes the text of the program's LLVM module one for WebAssembly.

What changes: the data layout and the target's name, the processor that the functions are for, and the name of `main`. The
pointers keep their 64 bits. What is not known here stops the build: a function from outside that the module beside the
program does not define, or data that is not constant, as a second call would not begin as the first did.
"""
import re

LAYOUT = "e-m:e-p:64:64-p10:8:8-p20:8:8-i64:64-i128:128-n32:64-S128-ni:1:10:20"
TRIPLE = "wasm64-unknown-unknown"
ENTRY = "page_main"

# Of these the module has a definition, or the compiler knows them by itself.
SYSTEM = {"rattle_arg", "rattle_env", "rattle_env_at", "rattle_set_errno", "rattle_errno", "__sysv_signal"}
HEAP = {"rattle_alloc", "rattle_realloc", "rattle_dealloc"}
FILES = {"open", "close", "read", "write"}
BYTES = {"memcpy", "memmove", "memset", "memcmp", "bcmp"}
KNOWN = SYSTEM | HEAP | FILES | BYTES

# What speaks of the machine that the module was made for.
OF_THE_MACHINE = re.compile(r'"(probe-stack|stack-probe-size|frame-pointer|target-features|tune-cpu)"="[^"]*"')


class Unknown(Exception):
    """What the module has and this does not know."""


def function_attributes(line):
    line = OF_THE_MACHINE.sub("", line)
    line = re.sub(r'"target-cpu"="[^"]*"', '"target-cpu"="lime1"', line)
    return re.sub(r"\bsanitize_address\b", "nounwind", line)


def check_declared(line):
    name = re.search(r"@([\w.$]+)\(", line).group(1)
    if name not in KNOWN and not name.startswith("llvm."):
        raise Unknown(f"a function from outside: {name}")
    if re.match(r"llvm\.x86", name):
        raise Unknown(f"an instruction of another processor: {name}")


def retargeted(text):
    lines = []
    for line in text.splitlines():
        if line.startswith("target datalayout"):
            line = f'target datalayout = "{LAYOUT}"'
        elif line.startswith("target triple"):
            line = f'target triple = "{TRIPLE}"'
        elif line.startswith("attributes"):
            line = function_attributes(line)
        elif line.startswith("declare"):
            check_declared(line)
        elif re.match(r"@\S+ = .*\bglobal\b", line):
            raise Unknown(f"data that can change: {line[:60]}")
        elif "asm sideeffect" in line or " asm \"" in line:
            raise Unknown(f"an instruction of another processor: {line.strip()[:60]}")
        elif line.startswith("define i32 @main("):
            line = line.replace("@main(", f"@{ENTRY}(")
        lines.append(line)
    text = "\n".join(lines) + "\n"
    if f"define i32 @{ENTRY}(" not in text:
        raise Unknown("no function `main`")
    return text
