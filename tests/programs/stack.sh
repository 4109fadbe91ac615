#!/usr/bin/env bash
# No function takes more stack than the header says, nor much less.
set -eu
cd "$(dirname "$0")/../.."
scratch=$(mktemp -d)
trap 'rm -rf "$scratch"' EXIT

gcc -std=c99 -Wall -Wextra -Werror -pedantic -Iinclude tests/programs/stack.c build/libtonschnecke.a -o "$scratch/stack"
"$scratch/stack" > "$scratch/taken"

# The functions that the header declares.
declared=$(sed -n 's/^[a-z].* \**\(ton_[a-z]*\)(.*/\1/p' include/tonschnecke.h | sort)
if [ "$declared" != "$(cut -d ' ' -f 1 "$scratch/taken" | sort)" ]; then
    echo "stack: not measured, or not declared: $declared"
    exit 1
fi
while read -r name taken; do
    said=$(sed -n "s/^ \*   .*\b$name \([0-9,]*\) bytes.*/\1/p" include/tonschnecke.h | tr -d ,)
    if [ -z "$said" ] || [ "$taken" -gt "$said" ] || [ "$taken" -lt $((said / 3)) ]; then
        echo "stack: $name takes $taken bytes, the header says '$said'"
        exit 1
    fi
done < "$scratch/taken"
echo 'stack: as the header says'
