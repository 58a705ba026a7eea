#!/usr/bin/env bash
# The installed command `hithwelor`: the Python package, which takes arguments that one can guess; where Python 3.9 or later is
# missing, the exact forms are answered by the proved program, or by the same code as a module under Node.js.
# shellcheck disable=SC2034,SC2317 # tools/lib/front.sh reads what is set here, and calls choose_engine
set -u
top=$(readlink -f "${BASH_SOURCE[0]}")
top=${top%/bin/*}
library=$top/lib/hithwelor
script=hithwelor
packages=$library/python
tables=$library
. "$library/built.sh"
. "$library/front.sh"

# The engine that is installed. Sets `engine`, or `fault`.
choose_engine() {
    local version
    if [ -x "$library/hithwelor" ]; then
        engine=("$library/hithwelor")
    elif version=$(node --version 2>/dev/null) && [[ $version =~ ^v([0-9]+)\. ]] && ((BASH_REMATCH[1] >= 18)); then
        engine=(node "$library/hithwelor.js")
        ! command -v python3 >/dev/null || export HITHWELOR_QUIET=1
    else
        fault="what is installed here needs Node.js 18 or later, and ${version:-none} is on the path"
        return 1
    fi
}

by_package "$@"
status=$?
[ "$status" = 97 ] || exit "$status"
if [[ $# = 1 && $1 = --version ]]; then
    printf 'hithwelor %s\n' "$(<"$library/version")"
    exit 0
fi
answer_exactly "$@"
exit
