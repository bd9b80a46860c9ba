#!/usr/bin/env bash
# Runs of the built programs, each compared with what an independent program wrote for it.
#
#   .ci/runs.sh [PROGRAM/NAME ..]      the named runs, or all
#
# A run is a folder .ci/runs/PROGRAM/NAME/ with `args` (one word to a line), `stdin`, `stdout`, `stderr` and `status`. Where one is
# missing there are no arguments, no input, no output of that sort, and status 0. `zeros`, in place of `stdin`, is a number of
# zero bytes that are the input. `rt run` proves and links a program once, and leaves it in its crate's folder out/.
set -u
cd "$(dirname "$0")/.." || exit 2
cases=$PWD/.ci/runs
made=$(mktemp -d) || exit 2
trap 'rm -rf "$made"' EXIT

# Whether a file that was written is the stored one, which is empty where there is none.
as_stored() { # CASE NAME
    local stored=$cases/$1/$2
    [ -f "$stored" ] || stored=/dev/null
    cmp -s "$stored" "$made/$2" && return
    echo "run $1: another $2 than stored:"
    diff "$stored" "$made/$2" | head -n 6
    return 1
}

# Makes a run and says in one line how it went.
ran() { # PROGRAM/NAME
    local words=() input=/dev/null status=0
    [ ! -f "$cases/$1/args" ] || mapfile -t words <"$cases/$1/args"
    [ ! -f "$cases/$1/stdin" ] || input=$cases/$1/stdin
    [ ! -f "$cases/$1/zeros" ] || head -c "$(cat "$cases/$1/zeros")" /dev/zero >"$made/zeros"
    [ ! -f "$cases/$1/zeros" ] || input=$made/zeros
    [ ! -f "$cases/$1/status" ] || status=$(cat "$cases/$1/status")
    "crates/${1%%/*}/out/${1%%/*}" "${words[@]}" <"$input" >"$made/stdout" 2>"$made/stderr"
    local ended=$?
    as_stored "$1" stdout && as_stored "$1" stderr || return 1
    if [ "$ended" -ne "$status" ]; then
        echo "run $1: ended with status $ended, not $status"
        return 1
    fi
    echo "run $1: as stored"
}

[ $# -gt 0 ] || set -- $(cd "$cases" && ls -d */*)
for program in $(printf '%s\n' "${@%%/*}" | sort -u); do
    (cd "crates/$program" && rt run) </dev/null >"$made/linked" 2>&1
    [ -x "crates/$program/out/$program" ] || {
        tail -n 20 "$made/linked"
        echo "runs: $program is not linked"
        exit 1
    }
done

failed=0
for name in "$@"; do
    ran "$name" || failed=$((failed + 1))
done
echo "runs: $(($# - failed)) as stored, $failed not"
[ "$failed" -eq 0 ]
