#!/usr/bin/env bash
# Fails where a run of rt ci that passed has bad edits: those that cannot be applied or read, which rt ci counts and fails nothing for.
# Use: tools/bad.sh LOG, of rt ci. Its line: `rt: ok; …; must-fail edits: N refused, M bad; …`, with no `, M bad` where there is none.
set -eu
line=$(grep '^rt: ok' "$1") || { echo "$1: rt ci did not say that all is well"; exit 1; }
bad=$(sed -n 's/.*, \([0-9][0-9]*\) bad.*/\1/p' <<< "$line")
if [ "${bad:-0}" -ne 0 ]; then
    echo "bad edits, which nothing refused: $bad. $1 names them:"
    grep 'BAD EDIT' "$1" || true
    exit 1
fi
