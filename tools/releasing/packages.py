"""The two packages: an archive that is unpacked anywhere, and one for Debian."""
import gzip
import os
import pathlib
import shutil
import subprocess
import tarfile
import time

from releasing import tree

NAME = "cfpp"
MAINTAINER = "Wogbuti maintainers <maintainers@users.noreply.wogbuti.example>"
CONTROL = """Package: cfpp
Version: {version}
Architecture: amd64
Maintainer: {maintainer}
Installed-Size: {size}
Depends: libc6 (>= 2.28)
Suggests: python3, rlwrap
Section: electronics
Priority: optional
Description: simulator of the Counterflow Pipeline Processor for RISC-V programs
 Instructions climb one pipe, results descend another, and there is no clock:
 every change is one local move, and any allowed move may come next. The
 program runs RISC-V programs move by move, under any schedule and layout, and
 each of its functions is proved to meet its contract.
"""
COPYRIGHT = """Format: https://www.debian.org/doc/packaging-manuals/copyright-format/1.0/
Upstream-Name: cfpp

Files: *
Copyright: 2026 Wogbuti maintainers
License: Expat
{license}"""
# Guests of the simulator are RISC-V programs, which are no programs of the package.
OVERRIDES = "".join(
    f"cfpp: {tag} *examples/*.elf*\n"
    for tag in ("arch-dependent-file-in-usr-share", "binary-from-other-architecture", "statically-linked-binary", "unstripped-binary-or-object")
)
CHANGELOG = """cfpp ({version}) unstable; urgency=medium

  * Release {version}.

 -- {maintainer}  {date}
"""


def epoch():
    """The time of the commit, which each file of a package gets."""
    return int(tree.git("log", "-1", "--format=%ct"))


def owned_by_nobody(entry):
    """An archive's entry without what another machine would have otherwise."""
    entry.uid = entry.gid = 0
    entry.uname = entry.gname = "root"
    entry.mtime = epoch()
    entry.mode = 0o755 if entry.isdir() or entry.mode & 0o100 else 0o644
    return entry


def archive(folder, linked, into):
    """The archive, all of whose files are in one directory."""
    name = f"{NAME}-{tree.version()}-x86_64-linux"
    top = folder / name
    tree.put_program(top, linked)
    tree.put_manual(top, ".")
    tree.put_documents(top, linked)
    made = into / f"{name}.tar.gz"
    with open(made, "wb") as file, gzip.GzipFile("", "wb", 9, file, epoch()) as packed:
        with tarfile.open(fileobj=packed, mode="w") as entries:
            entries.add(top, name, filter=owned_by_nobody)
    return made


def compress(file):
    """Replaces a file by its compressed form."""
    with open(f"{file}.gz", "wb") as packed, gzip.GzipFile("", "wb", 9, packed, 0) as entries:
        entries.write(file.read_bytes())
    file.unlink()


def license_text():
    """The license in the form of a Debian copyright file: without its name and the line of the copyright."""
    text = (tree.TOP / "LICENSE").read_text().partition("maintainers\n\n")[2]
    return "".join(f" {line}\n" if line else " .\n" for line in text.splitlines())


def documents_in(top):
    """The directory of the documents in the package that is made in this directory."""
    return top / tree.INSTALLED.removeprefix("/")


def put_debian_files(top):
    """What each package of Debian has beside its own files."""
    documents = documents_in(top)
    version, maintainer = tree.version(), MAINTAINER
    # Debian has the license in the file of the copyright.
    (documents / "LICENSE").unlink()
    tree.put(documents, "copyright", COPYRIGHT.format(license=license_text()))
    date = time.strftime("%a, %d %b %Y %H:%M:%S +0000", time.gmtime(epoch()))
    tree.put(documents, "changelog", CHANGELOG.format(version=version, maintainer=maintainer, date=date))
    tree.put(top, "usr/share/lintian/overrides/cfpp", OVERRIDES)
    for file in (documents / "changelog", top / "usr" / tree.MANUAL):
        compress(file)
    files = [path for path in top.rglob("*") if path.is_file()]
    size = sum(-(-path.stat().st_size // 1024) for path in files)
    sums = subprocess.run(["md5sum", *sorted(str(path.relative_to(top)) for path in files)], cwd=top, check=True, capture_output=True, text=True)
    tree.put(top, "DEBIAN/md5sums", sums.stdout)
    tree.put(top, "DEBIAN/control", CONTROL.format(version=version, maintainer=maintainer, size=size))


def set_modes(top):
    """The modes that files and directories of a package have."""
    for path in [top, *top.rglob("*")]:
        path.chmod(0o755 if path.is_dir() or path.stat().st_mode & 0o100 else 0o644)


def debian(folder, linked, into):
    """The Debian package; None where dpkg-deb is not installed."""
    if not shutil.which("dpkg-deb"):
        return None
    top = folder / "debian"
    tree.put_program(top / "usr", linked)
    tree.put_manual(top / "usr", tree.INSTALLED)
    tree.put_documents(documents_in(top), linked)
    put_debian_files(top)
    set_modes(top)
    made = into / f"{NAME}_{tree.version()}_amd64.deb"
    environment = {**os.environ, "SOURCE_DATE_EPOCH": str(epoch())}
    words = ["dpkg-deb", "--root-owner-group", "-Zxz", "--build", str(top), str(made)]
    subprocess.run(words, check=True, stdout=subprocess.DEVNULL, env=environment)
    return made


def both(folder, linked, into):
    into = pathlib.Path(into)
    into.mkdir(parents=True, exist_ok=True)
    return [made for made in (archive(folder, linked, into), debian(folder, linked, into)) if made]
