"""The manual page cfpp.1, made from the table of commands."""

PAGE = r""".TH CFPP 1 "{date}" "cfpp {version}" "User Commands"
.SH NAME
cfpp \- simulate the Counterflow Pipeline Processor, move by move
.SH SYNOPSIS
{synopsis}
.SH DESCRIPTION
.B cfpp
simulates the Counterflow Pipeline Processor of Sproull, Sutherland and Molnar (1994) for RISC\-V programs. Instructions climb one pipe,
results descend another, and there is no clock: every change is one local move, and any allowed move may come next. Each function of the
program is proved to meet its contract; the file
.I PROVED
names the sources that were proved.
.PP
.I LAYOUT
is
.BR plain ,
the built\-in layout, or the name of a TOML file.
.I PROGRAM
names an ELF file for RV32I or a flat image,
.I DELAYS
a text with the delays of moves. What a program writes, and what a command makes, goes to standard output; the report goes to standard error.
.SH COMMANDS
{commands}
.SH OPTIONS
Options come after the names, in any order, each at most once.
{options}
.SH EXIT STATUS
The process ends with the program's own status, or with one of these:
{statuses}
.SH FILES
.TP
.I {documents}/examples
programs, layouts, scripts, traces and delays
.TP
.I {documents}/docs
.I MANUAL.md
describes all files and reports,
.I ERRORS.md
each refusal and what to do about it,
.I SEMANTICS.md
the moves
.TP
.I {documents}/web/cfpp.html
the same program with a picture, for a browser
.SH EXAMPLES
.EX
cfpp run plain {documents}/examples/sorted.bin
cfpp run {documents}/examples/layouts/tiny.toml \e
    {documents}/examples/sorted.bin \-\-seed 1
.EE
.SH SEE ALSO
R. F. Sproull, I. E. Sutherland and C. E. Molnar,
.IR "The Counterflow Pipeline Processor Architecture" ,
IEEE Design & Test of Computers, 1994.
"""


def plain(text):
    """A text as troff writes it; a line of it begins no request."""
    escaped = text.replace("\\", "\\e").replace("-", "\\-")
    return f"\\&{escaped}" if escaped.startswith((".", "'")) else escaped


def bold_and_italic(call):
    """A call as manual pages have it: what is given literally in bold, and what is to be replaced in italics."""
    return " ".join(f"\\f{'I' if word.isupper() else 'B'}{plain(word)}\\fR" for word in call.split())


def entry(head, text):
    return f".TP\n{head}\n{plain(text)}"


def of_option(option):
    return entry(bold_and_italic(option.call), f"({', '.join(option.commands)}) {option.does}")


def synopsis(table):
    lines = [f"\\fBcfpp\\fR {bold_and_italic(command.call)}" for command in table.commands]
    options = [f"[{bold_and_italic('OPTION')} ..]" if table.options_of(command.name) else "" for command in table.commands]
    return "\n.br\n".join(f"{line} {option}".rstrip() for line, option in zip(lines, options))


def page(table, version, date, documents):
    """The page of this version and date, where the documents are in this directory."""
    return PAGE.format(
        version=version,
        date=date,
        documents=plain(documents),
        synopsis=synopsis(table),
        commands="\n".join(entry(bold_and_italic(it.call), it.does) for it in table.commands),
        options="\n".join(map(of_option, table.options)),
        statuses="\n".join(entry(f"\\fB{it.number}\\fR", it.why) for it in table.statuses),
    )
