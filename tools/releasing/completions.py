"""The completions for bash, zsh and fish, made from the table of commands."""
from releasing.table import COMMAND, NUMBER, REPEATED

BASH = """# Completion for cfpp, made from its table of commands.
_cfpp_add() {{
    local IFS=$'\\n'
    COMPREPLY+=($(compgen "$@" -- "${{COMP_WORDS[COMP_CWORD]}}"))
}}
_cfpp_add_words() {{
    _cfpp_add -W "${{1// /$'\\n'}}"
}}
_cfpp_add_files() {{
    compopt -o filenames
    _cfpp_add -f
}}
_cfpp() {{
    local commands="{commands}" operands= options= at=$((COMP_CWORD - 2)) last
    COMPREPLY=()
    if [ "$COMP_CWORD" -eq 1 ]; then
        _cfpp_add_words "$commands"
        return
    fi
    case ${{COMP_WORDS[1]}} in
{cases}
    esac
    case "${{COMP_WORDS[1]}} ${{COMP_WORDS[COMP_CWORD - 1]}}" in
{values}
    esac
    read -r -a operands <<<"$operands"
    last=$((${{#operands[@]}} - 1))
    if [ "$last" -ge 0 ] && [ "${{operands[last]}}" = .. ] && [ "$at" -ge "$last" ]; then
        at=$((last - 1))
    fi
    case ${{COMP_WORDS[COMP_CWORD]}} in
        --*) at=-1 ;;
    esac
    case ${{operands[at < 0 ? last + 1 : at]-}} in
        "") _cfpp_add_words "$options" ;;
        N) ;;
        COMMAND) _cfpp_add_words "{helped}" ;;
        LAYOUT)
            _cfpp_add_words plain
            _cfpp_add_files
            ;;
        *) _cfpp_add_files ;;
    esac
}}
complete -F _cfpp cfpp
"""

ZSH = """#compdef cfpp
# Completion for cfpp, made from its table of commands.
_cfpp_layout() {{
    _alternative 'builtin:built-in layout:(plain)' 'files:layout file:_files'
}}
_cfpp() {{
    local -a commands
    commands=(
{commands}
    )
    if (( CURRENT == 2 )); then
        _describe command commands
        return
    fi
    local command=$words[2]
    shift words
    (( CURRENT-- ))
    case $command in
{cases}
    esac
}}
_cfpp "$@"
"""

FISH = """# Completion for cfpp, made from its table of commands.
{commands}
{options}
"""


def commands_of(table):
    """The commands by their names: of two lines with one name the later one, which has more operands."""
    return {command.name: command for command in table.commands}


def names_of(table):
    return list(commands_of(table))


def helped(table):
    """The commands on which there is help: those that are not written as options."""
    return " ".join(name for name in names_of(table) if not name.startswith("-"))


def merged(options):
    """The values that each option can have, by its name."""
    values = {}
    for option in options:
        values.setdefault(option.name, []).append(option)
    return values


def for_bash(table):
    """A case for each command, and one for each of its options that takes a value."""
    cases, values = [], []
    for command in commands_of(table).values():
        options = merged(table.options_of(command.name))
        cases.append(f'        {command.name}) operands="{" ".join(command.operands)}" options="{" ".join(options)}" ;;')
        values += [value_for_bash(command.name, name, taken) for name, taken in options.items() if taken[0].value]
    return BASH.format(commands=" ".join(names_of(table)), helped=helped(table), cases="\n".join(cases), values="\n".join(values))


def value_for_bash(command, name, taken):
    """What comes after an option that takes a value: one of some words, a number, or a file."""
    if taken[0].is_literal():
        made = f'_cfpp_add_words "{" ".join(option.value for option in taken)}"; return'
    else:
        made = "_cfpp_add_files; return" if taken[0].is_file() else "return"
    return f'        "{command} {name}") {made} ;;'


def quoted(text):
    """A text within single quotes, for zsh and fish."""
    return text.replace("'", "’")


def operand_for_zsh(table, operands, at):
    kind = operands[at]
    action = {"LAYOUT": "_cfpp_layout", COMMAND: f"({helped(table)})", NUMBER: " "}.get(kind, "_files")
    count = "*" if operands[at + 1 : at + 2] == (REPEATED,) else str(at + 1)
    return f"'{count}:{kind}:{action}'"


def option_for_zsh(name, taken):
    first, values = taken[0], [option.value for option in taken]
    text = quoted(first.does if len(taken) == 1 else " or ".join(values)).replace("[", "(").replace("]", ")").replace(":", ",")
    if not first.value:
        return f"'{name}[{text}]'"
    if first.is_literal():
        return f"'{name}[{text}]:what:({' '.join(values)})'"
    return f"'{name}[{text}]:{first.value}:{'_files' if first.is_file() else ' '}'"


def for_zsh(table):
    """A description of each command, and the arguments of each."""
    cases = []
    for command in commands_of(table).values():
        operands = [operand_for_zsh(table, command.operands, at) for at, kind in enumerate(command.operands) if kind != REPEATED]
        options = [option_for_zsh(*pair) for pair in merged(table.options_of(command.name)).items()]
        arguments = " ".join(operands + options)
        cases.append(f"        {command.name}) {f'_arguments {arguments}' if arguments else ':'} ;;")
    commands = [f"        '{command.name}:{quoted(command.does)}'" for command in commands_of(table).values()]
    return ZSH.format(commands="\n".join(commands), cases="\n".join(cases))


def option_for_fish(option):
    line = f"complete -c cfpp -n '__fish_seen_subcommand_from {' '.join(option.commands)}' -l {option.name.removeprefix('--')}"
    if option.is_literal():
        line += f" -x -a {option.value}"
    elif option.value:
        line += " -r" if option.is_file() else " -x"
    return f"{line} -d '{quoted(option.does)}'"


def word_for_fish(name):
    """The first word of a call, which may be written as a long option or as a letter."""
    if name.startswith("--"):
        return f"-l {name.removeprefix('--')}"
    return f"-s {name.removeprefix('-')}" if name.startswith("-") else f"-a {name}"


def for_fish(table):
    """The commands as first words, their options, and `plain` where a layout is named."""
    first = "complete -c cfpp -n __fish_use_subcommand -f"
    commands = [f"{first} {word_for_fish(command.name)} -d '{quoted(command.does)}'" for command in commands_of(table).values()]
    with_layout = " ".join(command.name for command in table.commands if "LAYOUT" in command.operands)
    commands.append(f"complete -c cfpp -n '__fish_seen_subcommand_from {with_layout}' -a plain -d 'the built-in layout'")
    with_command = " ".join(command.name for command in table.commands if COMMAND in command.operands)
    if with_command:
        commands.append(f"complete -c cfpp -n '__fish_seen_subcommand_from {with_command}' -f -a '{helped(table)}'")
    return FISH.format(commands="\n".join(commands), options="\n".join(map(option_for_fish, table.options)))
