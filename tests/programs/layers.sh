#!/usr/bin/env bash
# No crate but reader itself names a definition or a law of the reader other than its promise: what it answers (declared.Counts), specs/Promise and
# proofs/Promised.
set -eu
cd "$(dirname "$0")/../.."

others=$(grep -rn 'Rattle\.reader\.' crates --exclude-dir=out --include='*.antt' --include='*.rt' |
    grep -v -e '^crates/reader/' -e 'Rattle\.reader\.specs\.Promise\b' -e 'Rattle\.reader\.specs\.declared\.Counts\b' -e 'Rattle\.reader\.proofs\.Promised\b' || true)
if [ -n "$others" ]; then
    echo 'named above the reader, and not part of its promise:'
    echo "$others"
    exit 1
fi
