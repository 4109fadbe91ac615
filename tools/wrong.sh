#!/usr/bin/env bash
# Tries the wrong programs and definitions of crates/*/wrong as `rt must-fail` tries those of must-fail/, in a copy of the tree where they stand there.
# Before a crate's edits the unedited crate must pass. The copy stands outside of the tree, since `rt ci` refuses another one inside.
# A refusal here is no verdict: each edit is tried over what a check kept. The gate's verdict is that of must-fail/.
# Use: tools/wrong.sh [--fit] [CRATE...]; with --fit it only sees whether each edit can be applied still, and asks no prover.
set -euo pipefail
cd "$(dirname "$0")/.."

fit=no
if [ "${1-}" = --fit ]; then
    fit=yes
    shift
fi
[ $# -gt 0 ] || set -- $(cd crates && ls -d */wrong | cut -d/ -f1)
log=build/wrong.log
copy=$(mktemp -d)
trap 'rm -rf "$copy"' EXIT

# Applies an edit to the copy of its crate: `old:` texts stand exactly once in their file.
apply() { # CRATE EDIT
    local file='' old='' line text
    while IFS= read -r line || [ -n "$line" ]; do
        case $line in
        'file: '*) file=$copy/crates/$1/${line#file: } ;;
        'old: '*) old=${line#old: } ;;
        'new:'*)
            line=${line#new:}
            [ "$(grep -oF -e "$old" "$file" | wc -l)" -eq 1 ] || return 1
            text=$(cat "$file" && echo .)
            printf '%s' "${text/"$old"/"${line# }"}" | sed '$d' >"$file"
            ;;
        esac
    done <"$2"
}

# What an edit changed in the copy of its crate is the tree's again.
restore() { # CRATE EDIT
    local file
    while IFS= read -r file; do cp -p "crates/$1/$file" "$copy/crates/$1/$file"; done < <(sed -n 's/^file: //p' "$2")
}

tar -c --exclude='crates/*/out' crates crates.txt $(ls HANDLES 2>/dev/null || true) | tar -x -C "$copy"

if [ $fit = yes ]; then
    tried=0 failed=0
    for crate; do
        for edit in crates/"$crate"/wrong/*.edit; do
            tried=$((tried + 1))
            if ! apply "$crate" "$edit"; then
                echo "$crate/$(basename "$edit" .edit): BAD EDIT: an 'old:' text does not stand exactly once in its file"
                failed=$((failed + 1))
            fi
            restore "$crate" "$edit"
        done
    done
    echo "wrong: $tried edits, of which $failed cannot be applied"
    [ "$failed" -eq 0 ]
    exit
fi

rm -rf "$copy"/crates/*/must-fail
for crate; do
    tools/rt.sh "build/wrong-$crate.log" "$copy/crates/$crate" check || { echo "$crate: the unedited crate is not proved"; exit 1; }
    mkdir "$copy/crates/$crate/must-fail"
    cp "crates/$crate/wrong"/*.edit "$copy/crates/$crate/must-fail"
done
status=0
tools/rt.sh $log "$copy" must-fail "$@" || status=$?
tried=$(grep -c '^rt: must-fail ' $log || true)
refused=$(grep -c '^rt: must-fail [^:]*: refused, ' $log || true)
echo "$tried wrong programs tried, $((tried - refused)) not refused; a refusal here is no verdict"
[ "$status" -eq 0 ] && [ "$tried" -eq "$refused" ] && [ "$tried" -eq "$(for crate; do ls "crates/$crate/wrong"/*.edit; done | wc -l)" ]
