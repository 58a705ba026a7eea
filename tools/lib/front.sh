# shellcheck shell=bash disable=SC2154
# Answers exact arguments by the engine that was chosen, for ./try, ./workbench, ./hithwelor and the installed command. What is
# said beside the answer is the Python package's, of tools/lib/forms.tsv; without Python it is short. Sourced behind
# tools/lib/built.sh, with the engine's command in `engine`, the script's name in `script`, and the folders of the Python package
# in `packages` and of forms.tsv in `tables`.
packages=${packages-$top/python}
tables=${tables-$top/tools/lib}

# Whether Python 3.9 or later is here, with the package.
has_python() {
    [ -d "$packages/hithwelor" ] && python3 -c 'import sys; sys.exit(sys.version_info < (3, 9))' 2>/dev/null
}

# The Python package's command. Status 97: Python is too old, or missing.
by_package() {
    command -v python3 >/dev/null && [ -d "$packages/hithwelor" ] || return 97
    PYTHONPATH=$packages${PYTHONPATH:+:$PYTHONPATH} python3 -B -c 'import sys
if sys.version_info < (3, 9): sys.exit(97)
from hithwelor.__main__ import command
command()' "$@"
}

# A part of the package.
by_python() {
    PYTHONPATH=$packages${PYTHONPATH:+:$PYTHONPATH} python3 -B -m "$@"
}

# The engine: the proved program where it is current, else the module under Node.js. Sets `engine`, or `fault`.
choose_engine() {
    if is_current; then
        engine=("$program")
    elif find_fault_of_module && [ -z "$fault" ]; then
        engine=(node "$top/bin/hithwelor")
        # Node.js explains a refusal by itself, in fewer words than the package does.
        ! command -v python3 >/dev/null || export HITHWELOR_QUIET=1
    else
        return 1
    fi
}

# Whether the arguments' command reads an input.
reads_input() {
    grep -q "^form	${1-}\( \|	\)" "$tables/forms.tsv" && ! grep -q "^form	$1 .*	unread$" "$tables/forms.tsv"
}

# Prints the exact forms.
show_help() {
    if has_python; then
        by_python hithwelor.cli_explain help "${@:2}"
    else
        sed -n 's/^form	\([^	]*\)	\([^	]*\).*/  \1: \2/p' "$tables/forms.tsv"
    fi
}

# Says what a status of the program means; a refused input is on standard input once more.
explain() {
    if has_python; then
        by_python hithwelor.cli_explain "$@" >/dev/null
    elif [ "${engine[0]-}" != node ] || [ -n "${HITHWELOR_QUIET-}" ]; then
        say "status $1: $(sed -n "s/^status	$1	[^	]*	\([^	]*\).*/\1/p" "$tables/forms.tsv")"
    fi
}

# Answers exact arguments: standard input and output and the status are the engine's own.
answer() {
    local room='' status
    if [ -t 0 ] && reads_input "$@"; then
        say "reading what is typed, up to Ctrl-D"
    fi
    if [ -p /dev/stdin ] && room=$(mktemp 2>/dev/null); then
        "${engine[@]}" "$@" < <(exec tee -- "$room")
    else
        "${engine[@]}" "$@"
    fi
    status=$?
    case $status in
    [2-9])
        if [ -n "$room" ]; then
            explain "$status" "$@" <"$room"
        else
            explain "$status" "$@"
        fi
        ;;
    esac
    [ -z "$room" ] || rm -f -- "$room"
    return "$status"
}

# Whether the arguments ask for help.
asks_for_help() {
    [[ ($# = 1 && ($1 = --help || $1 = -h)) || ($# -le 2 && ${1-} = help) ]]
}

# Answers an exact form where Python isn't there for the rest.
answer_exactly() {
    if asks_for_help "$@"; then
        say "Python 3.9 or later is missing; without it these exact forms are answered, with the input on standard input:"
        show_help "$@"
        return 0
    fi
    if ! choose_engine; then
        say "nothing here can answer: Python 3.9 or later is missing, the proved program isn't built, and $fault"
        return 1
    fi
    "${engine[@]}" "$@" </dev/null >/dev/null 2>&1
    if [ "$?" = 2 ]; then
        say "no exact form, and Python 3.9 or later, which reads other arguments, is missing: $script help shows the exact forms"
        return 2
    fi
    answer "$@"
}
