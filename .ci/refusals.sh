#!/usr/bin/env bash
# What the front end must refuse: moved values used again, values with two owners, linear values let go.
#
#   .ci/refusals.sh [NAME ..]      the named cases, or all
#
# A case is a folder .ci/refusals/NAME/ with
#   edit      `file:` a path from the top of the repository, `old:` a text that stands there once, `new:` what takes its place
#   control   an edit of the same shape that is taken: the crate is proved with it
#   expect    the name of the error by which `edit` is refused
# Each edit is made in a copy of the repository, and `rt check` is run on the crate: it checks types, moves, borrows and linear
# values before it proves anything.
set -u
cd "$(dirname "$0")/.." || exit 2
cases=$PWD/.ci/refusals
copy=$(mktemp -d) || exit 2
trap 'rm -rf "$copy"' EXIT

mkdir "$copy/crates" && cp crates.txt "$copy/" || exit 2
(cd crates && tar cf - --exclude=out --exclude=must-fail .) | tar xf - -C "$copy/crates" || exit 2

# The text after a word at the beginning of a line.
field() { # WORD FILE
    sed -n "s/^$1: \{0,1\}//p" "$2"
}

# Makes an edit in the copy, checks the crate and puts the file back. What is said goes to the copy's file `said`.
checked() { # EDIT
    local file old new crate status
    file=$(field file "$1") old=$(field old "$1") new=$(field new "$1")
    cp "$copy/$file" "$copy/before" || return 2
    OLD=$old NEW=$new awk '
        { text = text $0 "\n" }
        END {
            old = ENVIRON["OLD"]; at = index(text, old); rest = substr(text, at + length(old))
            if (old == "" || !at || index(rest, old)) exit 3
            printf "%s%s%s", substr(text, 1, at - 1), ENVIRON["NEW"], rest
        }' "$copy/before" >"$copy/$file"
    status=$?
    if [ "$status" -ne 0 ]; then
        echo "the text of \`old:\` does not stand once in $file" >"$copy/said"
    else
        crate=${file#crates/}
        (cd "$copy/crates/${crate%%/*}" && rt check) >"$copy/said" 2>&1
        status=$?
    fi
    cp "$copy/before" "$copy/$file"
    return "$status"
}

# The names of the errors that were said, each once.
errors() {
    grep -o 'error\[[a-z0-9-]*\]' "$copy/said" | sed 's/^error\[//; s/\]$//' | sort -u
}

# Tries a case and says in one line how it went.
tried() { # NAME
    local name=$1 expected began
    expected=$(cat "$cases/$name/expect") || return 1
    began=$(date +%s)
    if checked "$cases/$name/edit"; then
        echo "refusal $name: NOT REFUSED"
        return 1
    fi
    if [ "$(errors)" != "$expected" ]; then
        echo "refusal $name: refused, but not by $expected alone:"
        cut -c 1-400 "$copy/said" | tail -n 20
        return 1
    fi
    if ! checked "$cases/$name/control"; then
        echo "refusal $name: its control is refused too:"
        cut -c 1-400 "$copy/said" | tail -n 20
        return 1
    fi
    echo "refusal $name: refused by $expected, and its control is taken ($(($(date +%s) - began)) s)"
}

[ $# -gt 0 ] || set -- $(ls "$cases")
failed=0
for name in "$@"; do
    tried "$name" || failed=$((failed + 1))
done
echo "refusals: $(($# - failed)) as they must be, $failed not"
[ "$failed" -eq 0 ]
