"""The crates that the program is built of, and the files that each build of it reads."""
import hashlib
import pathlib

TOP = pathlib.Path(__file__).resolve().parent.parent.parent
CRATES = TOP / "crates"
PROGRAM = "cfpp"
# What the proof of a crate reads, and what is read where nothing is proved.
PROVED_PARTS = ("src", "specs", "proofs")
CODE_PARTS = ("src",)


def crates_below(program):
    """The crates that the program is built of, itself among them, each with those of the repository that it uses."""
    listed = {}
    for line in (TOP / "crates.txt").read_text().splitlines():
        if line and not line.startswith("#"):
            name, _, used = line.partition(":")
            listed[name.split()[0]] = used.split()
    needed, left = {}, [program]
    while left:
        name = left.pop()
        if name not in needed:
            needed[name] = [used for used in listed[name] if used in listed]
            left += needed[name]
    return needed


def all_below(name, needed):
    """The crates that it uses, and those that these use."""
    found, left = set(), [name]
    while left:
        more = set(needed[left.pop()]) - found
        found |= more
        left += more
    return found


def files_of(name, parts=PROVED_PARTS):
    """The files of these parts of a crate."""
    folders = [CRATES / name / part for part in parts]
    return sorted(path for folder in folders for path in folder.rglob("*") if path.is_file())


def sum_of(needed, parts=PROVED_PARTS):
    """The checksum of these parts of these crates."""
    total = hashlib.sha256()
    for name in sorted(needed):
        total.update(f"{name}: {' '.join(needed[name])}\n".encode())
        for path in files_of(name, parts):
            of_file = hashlib.sha256(path.read_bytes()).hexdigest()
            total.update(f"{path.relative_to(TOP)} {of_file}\n".encode())
    return total.hexdigest()[:32]
