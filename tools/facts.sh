#!/usr/bin/env bash
# The edits of crates/*/must-fail as the rows of docs/EDITS.md: where the first fact fails, as a log of `rt ci` or `rt must-fail` says it.
# Use: tools/facts.sh [LOG], build/ci.log where none is named, which `make test` leaves. An edit that the log does not name has an empty cell.
set -euo pipefail
cd "$(dirname "$0")/.."
log=${1-build/ci.log}

# The function that has this line, below the module of its file.
function_at() { # CRATE FILE LINE
    local module=${2#src/} name
    # an attribute stands above its function
    if sed -n "$3p" "crates/$1/$2" | grep -q '^ *#\['; then
        name=$(tail -n "+$3" "crates/$1/$2" | sed -n 's/^.*\bfn \([a-z0-9_]*\).*/\1/p' | head -n 1)
    else
        name=$(head -n "$3" "crates/$1/$2" | sed -n 's/^.*\bfn \([a-z0-9_]*\).*/\1/p' | tail -n 1)
    fi
    module=${module%.rt}/
    echo "${module#lib/}$name"
}

# What the log says of an edit's first fact: `GOAL`, FUNCTION, or `LEMMA`, FILE of proofs/.
fact() { # CRATE EDIT
    local said place goal weak=
    said=$(grep -m 1 -F "rt: must-fail $1/$2.edit: refused, as it must be" "$log" || true)
    said=${said#*: refused, as it must be}
    case $said in
    ' (only by a limit'*) weak=', by a limit' ;;
    ' (only because'*) weak=', by a name' ;;
    esac
    # rt cuts the line that it tells, within a long name too
    if [[ $said =~ note:\ (src/[a-z0-9_/]*\.rt):([0-9]+):[0-9]+:\ (.*) ]]; then
        place=$(function_at "$1" "${BASH_REMATCH[1]}" "${BASH_REMATCH[2]}")
        goal=${BASH_REMATCH[3]}
        if [[ $goal == *'(`'* ]]; then goal=${goal#*'(`'}; else goal=${goal#*'`'}; fi
    elif [[ $said =~ (proofs|specs)/([^:\ ]*)\.antt:[0-9]+:[0-9]+:\ error:\ \`(.*) ]]; then
        place=${BASH_REMATCH[2]} goal=${BASH_REMATCH[3]}
        place=${place%/Answers} place=${place%/Invariants} place=${place%/Proof}
    else
        return 0
    fi
    echo "\`${goal%%'`'*}\`, $place$weak"
}

for edit in crates/*/must-fail/*.edit; do
    crate=${edit#crates/}
    crate=${crate%%/*}
    name=$(basename "$edit" .edit)
    first=
    [ ! -f "$log" ] || first=$(fact "$crate" "$name")
    printf '| %-11s | %-33s | %-51s |\n' "$crate" "$name" "$first"
done
