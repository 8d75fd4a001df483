# Which program is run. ./cfpp and tools/program read this file.
is_kept() { # is_kept TOP: sets `program` to the one of the sources as they are; fails where none is known of
    local current=$1/.cache/current
    [ -e "$current" ] && read -r program <"$current" && program=$1/.cache/$program && [ -x "$program" ] &&
        [ -z "$(find "$1/crates.txt" "$1"/crates/*/{src,specs,proofs} -newer "$current" -print -quit 2>/dev/null)" ]
}

choose_program() { # choose_program TOP: sets `program`; where none is kept it is compiled, without its proofs
    is_kept "$1" && return
    if ! command -v python3 >/dev/null; then
        echo "cfpp: Python 3 is needed to build the simulator; what works without it: the page, web/cfpp.html in a browser, and the program of a release" >&2
        exit 1
    fi
    "$1/tools/compile"
    read -r program <"$1/.cache/current"
    program=$1/.cache/$program
}

is_proved() { # is_proved PROGRAM
    case ${1##*/} in
        unproved-*) return 1 ;;
    esac
}
