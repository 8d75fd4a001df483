# Runs the program; at a terminal some reports are followed by a hint. ./cfpp and the cfpp of a release read this file.
# The program's own bytes stay as they are: a hint is a line of its own on standard error, and begins with `cfpp: `.

named() { # named OPERAND COMMAND ARGUMENT..: the files that a call names for this operand of its command, a line each
    local wanted=$1 command=$2 kind call names=() each at=1
    shift 2
    while IFS='|' read -r kind call _; do
        read -r -a names <<<"$call"
        [ "$kind" != "command " ] || [ "${names[0]}" != "$command" ] || break
    done <"$commands"
    for each in "$@"; do
        [[ $each != --* ]] || return 0
        # What is before the dots may be named several times.
        [ "${names[at]-}" != .. ] || at=$((at - 1))
        [ "${names[at]-}" != "$wanted" ] || printf '%s\n' "$each"
        at=$((at + 1))
    done
}

given() { # given OPTION ARGUMENT..: what a call gives for this option
    local wanted=$1
    shift
    while [ $# -gt 1 ]; do
        [ "$1" != "$wanted" ] || printf '%s\n' "$2"
        shift
    done
}

unread() { # unread FILE: why it is not read; fails where nothing is seen to be wrong with it
    if [ ! -e "$1" ]; then
        echo "there is no such file"
    elif [ -d "$1" ]; then
        echo "it is a directory"
    elif [ ! -r "$1" ]; then
        echo "you may not read it"
    else
        return 1
    fi
}

tell_fault() { # tell_fault WHAT ARGUMENT..: names the file that could not be read
    local what=$1 file why
    shift
    { named "${what^^}" "$@" && given "--$what" "$@"; } | while IFS= read -r file; do
        if [ "$what" = layout ] && [ "$file" = plain ]; then
            continue
        elif [ "$what" = layout ] && [ ! -e "$file" ] && [ -e "$examples/layouts/$file.toml" ]; then
            echo "cfpp: the layout $file is a file: ${examples#"$PWD/"}/layouts/$file.toml"
            break
        elif why=$(unread "$file"); then
            echo "cfpp: $file: $why"
            break
        fi
    done
}

tell_argument() { # tell_argument INDEX ARGUMENT..: names the argument that is none
    local at=$(($1 + 1)) all=" $* "
    if [[ ${2--} != -* && ( $all == *" --help "* || $all == *" -h "* ) ]]; then
        echo "cfpp: cfpp help $2 prints its arguments and options"
    elif [ "$at" -lt $# ]; then
        shift "$at"
        echo "cfpp: unrecognised argument '$1'; see cfpp help"
    else
        echo "cfpp: an argument is missing at the end; see cfpp help"
    fi
}

tell_text() { # tell_text ARGUMENT..: says so where the program is a file of printable text
    local file
    [ $# -gt 0 ] || return 0
    file=$(named PROGRAM "$@")
    if [ -f "$file" ] && [ -s "$file" ] && ! head -c 4096 "$file" | LC_ALL=C grep -q '[^[:print:][:space:]]'; then
        echo "cfpp: $file is text, and no program; cfpp asm SOURCE >FILE makes one of an assembly source"
    fi
}

filled() { # filled FORM REASON TEXT: the text with what the reason keeps, for the placeholders of the form; fails where it has another form
    local form given word at made='' placeholder='^(xRR|[A-Z])$' remark='^(.*) \([A-Z] is [0-9]+\)(.*)$' text=$3
    read -r -a form <<<"$1"
    read -r -a given <<<"$2"
    [ "${#form[@]}" -eq "${#given[@]}" ] || return 1
    for at in "${!form[@]}"; do
        [[ ${form[at]} = "${given[at]}" || ${form[at]} =~ $placeholder ]] || return 1
    done
    # A remark on a placeholder itself says nothing once that is filled in.
    while [[ $text =~ $remark ]]; do
        text=${BASH_REMATCH[1]}${BASH_REMATCH[2]}
    done
    set -f
    for word in $text; do
        for at in "${!form[@]}"; do
            if [[ ${form[at]} =~ $placeholder && $word =~ ^${form[at]}([^A-Za-z]*)$ ]]; then
                word=${given[at]}${BASH_REMATCH[1]}
                break
            fi
        done
        made+=" $word"
    done
    set +f
    printf 'cfpp:%s\n' "${made//\`/}"
}

tell_reason() { # tell_reason SECTION REASON: why, as this section of ERRORS.md says it
    local section=$1 reason=$2 line form why here=
    [ -r "$errors" ] || return 0
    while IFS= read -r line; do
        case $line in
            "## "*) here=${line#"## "} ;;
            "| \`"*)
                IFS='|' read -r _ form why _ <<<"$line"
                if [ "$here" = "$section" ] && filled "${form//\`/}" "$reason" "$why"; then return 0; fi
                ;;
        esac
    done <"$errors"
}

tell_label() { # tell_label LINE SOURCE: names the label of a line of the source that no line defines
    local text word register='^(x[0-9]+|zero|ra|sp|gp|tp|fp|t[0-6]|s[0-9]|s1[01]|a[0-7])$'
    [ -r "$2" ] || return 0
    text=$(sed -n "$1{s/#.*//;s/^[[:space:]]*[A-Za-z_.\$][A-Za-z0-9_.\$]*://;p}" "$2")
    read -r _ text <<<"$text"
    while IFS= read -r word; do
        read -r word <<<"$word"
        if [[ $word =~ ^[A-Za-z_.$] && ! $word =~ $register ]] &&
            ! awk -v label="$word:" '{ sub(/^[ \t]+/, "") } index($0, label) == 1 { found = 1 } END { exit !found }' "$2"; then
            echo "cfpp: $2, line $1: no line defines the label $word"
            return
        fi
    done <<<"${text//,/$'\n'}"
}

tell_refusal() { # tell_refusal LINE ARGUMENT..: explains the first line of a report
    local reason=${1#*: } line=${1%%: *}
    reason=${reason#Refused }
    reason=${reason#Elf }
    case $1 in
        "bad source line "*": NoLabel") tell_label "${line##* }" "${3-}" ;;
        "bad source line "*": Text WrongCount "*)
            tell_reason Assembly "$reason"
            tell_label "${line##* }" "${3-}"
            ;;
        "bad source line "*) tell_reason Assembly "$reason" ;;
        "barred at line "*) tell_reason Bars "$reason" ;;
        "bad layout: "*) tell_reason Layouts "$reason" ;;
        "bad program: "*) tell_reason Programs "${reason#Load }" ;;
        "bad script line "*) tell_reason Scripts "$reason" ;;
        "bad delays line "*) tell_reason Delays "$reason" ;;
        "bad trace line "*": Barred "*) tell_reason Bars "${reason#Barred }" ;;
        "bad trace line "*) tell_reason Traces "$reason" ;;
        "bad log line "*": Barred "*) tell_reason Bars "${reason#Barred }" ;;
        "bad log line "*) tell_reason Logs "$reason" ;;
    esac
}

explained() { # explained ARGUMENT..: hands the report on, with the hints
    local first
    IFS= read -r first || { printf '%s' "$first"; return; }
    printf '%s\n' "$first"
    case $first in
        "bad words at "*) tell_argument "${first##* }" "$@" ;;
        "read fault "*) tell_fault "${first##* }" "$@" ;;
        *) tell_refusal "$first" "$@" ;;
    esac
    cat
    tell_text "$@"
}

edits_lines() { # whether rlwrap is installed, and the terminal can move its cursor and says how wide it is
    command -v rlwrap >/dev/null && [ "${TERM-dumb}" != dumb ] && [[ $(stty size 2>/dev/null) == *" "[1-9]* ]]
}

debug_by_hand() { # debug_by_hand PROGRAM COMMANDS debug LAYOUT GUEST: a session at a terminal; returns where nobody types, or no session begins
    local program=$1 words=${2%/*}/debugger.txt session=${2%/*}/session editor=()
    [ -e "$session" ] || session=${2%/*}/../session
    shift 2
    [ -t 0 ] || return 0
    # What refuses a session without commands refuses each; its report then gets the hints of any other.
    "$program" "$@" </dev/null >/dev/null 2>&1 || return 0
    # rlwrap edits lines, keeps their history and completes the words of the commands.
    ! edits_lines || editor=(rlwrap -C cfpp -f "$words")
    if [ -t 1 ] && [ -t 2 ] && command -v python3 >/dev/null; then
        # Nothing is written beside what a package has installed.
        exec "${editor[@]}" python3 -B "$session" "$program" "$2" "$3"
    elif [ "${#editor[@]}" -gt 0 ]; then
        exec "${editor[@]}" "$program" "$@"
    fi
}

run_program() { # run_program PROGRAM COMMANDS EXAMPLES ARGUMENT..: the program's file, the table of commands, the directory of the examples
    local program=$1 commands=$2 examples=$3 errors=${3%/*}/docs/ERRORS.md status
    [ -e "$errors" ] || errors=${3%/*}/ERRORS.md
    shift 3
    [ "${1-}" != debug ] || [ $# -ne 3 ] || debug_by_hand "$program" "$commands" "$@"
    [ -t 2 ] || exec "$program" "$@"
    {
        "$program" "$@" 2>&1 >&3 3>&- | explained "$@" >&2
        status=${PIPESTATUS[0]}
    } 3>&1
    exit "$status"
}
