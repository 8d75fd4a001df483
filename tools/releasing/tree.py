"""The files of a release."""
import hashlib
import shutil
import subprocess

from building.sources import TOP
from releasing import TERMINAL, WRAPPER, completions, manual, program, table

LIBRARY = "libexec/cfpp"
MANUAL = "share/man/man1/cfpp.1"
COMPLETIONS = {
    "share/bash-completion/completions/cfpp": completions.for_bash,
    "share/zsh/vendor-completions/_cfpp": completions.for_zsh,
    "share/fish/vendor_completions.d/cfpp.fish": completions.for_fish,
}
# A session of the debugger, which the wrapper starts with Python where that is installed.
SESSION = (
    "session",
    *(f"cfpp_tools/{name}.py" for name in ("__init__", "command_line", "commands", "decorating", "program")),
    *(f"cfpp_tools/programs/{name}.py" for name in ("__init__", "annotate", "session")),
    "cfpp_tools/readers/*.py",
)
# Where the documents are once the Debian package is installed.
INSTALLED = "/usr/share/doc/cfpp"
DOCUMENTS = ("README.md", "LICENSE", "docs", "examples", "web/cfpp.html")
PROVED = """cfpp {version}: each function of the program meets its contract.

commit   {commit}
kit      {kit}
object   {object_sum}, which the program was linked from
program  {program_sum}, the file {library}/cfpp
sources  {count} files, whose SHA-256 sums follow; in a checkout of the commit they are compared by
         grep '^[0-9a-f]\\{{64\\}}  ' PROVED | sha256sum --quiet -c

"""


def git(*words):
    return subprocess.run(["git", "-C", TOP, *words], check=True, capture_output=True, text=True).stdout


def version():
    return (TOP / "VERSION").read_text().strip()


def date():
    """That of the commit, so that a release of a commit is always the same."""
    return git("log", "-1", "--format=%cs").strip()


def sum_of(path):
    return hashlib.sha256(path.read_bytes()).hexdigest()


def put(folder, name, text):
    file = folder / name
    file.parent.mkdir(parents=True, exist_ok=True)
    file.write_text(text)


def copy(folder, name, source, mode):
    file = folder / name
    file.parent.mkdir(parents=True, exist_ok=True)
    shutil.copyfile(source, file)
    file.chmod(mode)


def proved_file(linked):
    """What says of what sources, and by which kit, the program was proved."""
    sources = program.sources()
    head = PROVED.format(
        version=version(),
        commit=git("rev-parse", "HEAD").strip(),
        kit=program.kit_line(),
        count=len(sources),
        object_sum=sum_of(program.proved_object()),
        program_sum=sum_of(linked),
        library=LIBRARY,
    )
    return head + "".join(f"{sum_of(path)}  {path.relative_to(TOP)}\n" for path in sources)


def put_program(folder, linked):
    """The program, its wrapper, and what the wrapper reads and starts."""
    copy(folder, "bin/cfpp", WRAPPER, 0o755)
    copy(folder, f"{LIBRARY}/cfpp", linked, 0o755)
    for name in ("hints.bash", "commands.txt", "debugger.txt"):
        copy(folder, f"{LIBRARY}/{name}", TERMINAL / name, 0o644)
    tools = TOP / "tools"
    for pattern in SESSION:
        for file in sorted(tools.glob(pattern)):
            copy(folder, f"{LIBRARY}/{file.relative_to(tools)}", file, 0o644)


def put_manual(folder, documents):
    """The manual page, which names the directory of the documents, and the completions."""
    listed = table.read()
    put(folder, MANUAL, manual.page(listed, version(), date(), documents))
    for name, made in COMPLETIONS.items():
        put(folder, name, made(listed))


def put_documents(folder, linked):
    """The documents, the examples and the page, as the repository has them, and the file PROVED."""
    for name in git("ls-files", *DOCUMENTS).splitlines():
        copy(folder, name, TOP / name, 0o644)
    put(folder, "PROVED", proved_file(linked))
