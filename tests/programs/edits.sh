#!/usr/bin/env bash
# docs/EDITS.md has each edit that the gate tries, and the fact that fails first, as the log of its run says where no file of the edit's crate was changed
# since.
set -euo pipefail
cd "$(dirname "$0")/../.."
log=build/ci.log
failed=0

names() {
    awk -F'|' '{ gsub(/ /, "", $2); gsub(/ /, "", $3); print $2 "/" $3 }'
}
rows=$(grep '^| [a-z_]* *| [a-z0-9_]* *| `' docs/EDITS.md || true)
facts=$(tools/facts.sh "$log")
if ! diff <(names <<<"$facts" | sort) <(names <<<"$rows" | sort) >&2; then
    echo 'docs/EDITS.md: < is tried by the gate and not there, > is there and not tried'
    failed=1
fi

compared=0
while IFS= read -r row; do
    IFS='|' read -r _ crate name fact _ <<<"$row"
    crate=${crate// /} name=${name// /}
    [ -f "$log" ] && [ -z "$(find "crates/$crate" -name out -prune -o -newer "$log" -type f -print -quit)" ] || continue
    if [ -z "${fact// /}" ]; then
        echo "$log: no fact is told of $crate/$name"
        failed=1
        continue
    fi
    compared=$((compared + 1))
    if ! grep -qxF -- "$row" <<<"$rows"; then
        echo "docs/EDITS.md: the log says: $row"
        failed=1
    fi
done <<<"$facts"
echo "edits: the first facts of $compared were compared with the log"
exit $failed
