# shellcheck shell=bash
# Finds a Python with pytest, for tools/check, tools/setup and .ci/run: the one on the path, Debian's own, or that of the virtual
# environment that tools/setup makes.
environment=${XDG_CACHE_HOME:-$HOME/.cache}/hithwelor/python

# Prints the first of them, from Python 3.9 on, that has all of these modules; status 1 if none has.
python_with() {
    local python imports
    imports=$(printf 'import %s; ' "$@")
    for python in python3 "${HITHWELOR_PYTHON:-/usr/bin/python3}" "$environment/bin/python"; do
        if "$python" -c "import sys; ${imports}sys.exit(sys.version_info < (3, 9))" 2>/dev/null; then
            printf '%s\n' "$python"
            return
        fi
    done
    return 1
}
