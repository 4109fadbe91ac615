#!/usr/bin/env bash
# docs/PROOFS.md claims what is so: each name of its tables stands in a file named beside it, and what it counts is counted here.
set -euo pipefail
cd "$(dirname "$0")/../.."
proofs=docs/PROOFS.md
failed=0

wrong() { # WHAT
    echo "$proofs: $1"
    failed=1
}

# A file as the tables name it: crate/File, crate/specs/File, crate/src/file.rt, or File of the crate named before it.
file_of() { # CRATE NAME
    case $2 in
    */src/*.rt) echo "crates/$2" ;;
    *.rt) echo "crates/$1/src/$2" ;;
    */specs/*) echo "crates/$2.antt" ;;
    */*) echo "crates/${2%%/*}/proofs/${2#*/}.antt" ;;
    *) echo "crates/$1/proofs/$2.antt" ;;
    esac
}

checked=0
while IFS='|' read -r _ names second last _; do
    last=$(echo "$last" | xargs -0 | sed 's/^ *//; s/ *$//')
    [[ $last =~ ^[a-z_]+/[A-Za-z_/.]+([,\;]\ [A-Za-z_/.]+)*$ ]] || continue
    # of numerals the law comes first, then its name
    [[ $names == *'`'* || -z ${names// /} ]] || names=$second
    crate=${last%%/*}
    files=()
    for part in $(echo "$last" | tr ',;' '  '); do
        files+=("$(file_of "$crate" "$part")")
    done
    for file in "${files[@]}"; do
        [ -f "$file" ] || wrong "there is no $file ($names)"
    done
    for name in $(echo "$names" | grep -o '`[^`]*`' | tr -d '`'); do
        checked=$((checked + 1))
        grep -qwF -- "$name" "${files[@]}" 2>/dev/null || wrong "$name is not in ${files[*]}"
    done
done < <(grep '^|' "$proofs")
[ "$checked" -ge 100 ] || wrong "only $checked names were found in its tables"

# Lines without comments, blank lines and imports.
lines() { # FILE...
    cat "$@" | grep -cv -e '^ *--' -e '^ *$' -e '^use '
}
says() { # WORDS
    tr '\n' ' ' <"$proofs" | sed 's/  */ /g' | grep -qF -- "$1" || wrong "it should say: $1"
}

format=crates/format/specs
reading=$(lines $format/{Bytes,Kind,Tree,Syntax,Keys,Limits,Fits,Answer,Codes,Read,Table,Meaning,Reading}.antt crates/decimal/specs/{Digits,Complement}.antt)
says "of crates/decimal: $reading lines without comments, blank lines and imports"
says "For canonical text Canonical ($(lines $format/Canonical.antt) lines)"
says "for inserting Edit and Writing ($(lines $format/{Edit,Writing}.antt)), crates/insertion/specs/Shift ($(lines crates/insertion/specs/Shift.antt)) and Ways"
says "and Ways ($(lines crates/insertion/specs/Ways.antt)), for what a table says Shows ($(lines $format/Shows.antt))"

calls() { # LETTER
    grep -c "^$1 " crates/cases/stdin
}
all=$(($(calls r) + $(calls c) + $(calls i)))
says "runs $all worked calls from its file \`stdin\`, $(calls r) of \`read\`, $(calls c) of \`canonicalize\` and $(calls i) of \`insert\`"

exit $failed
