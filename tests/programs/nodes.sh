#!/usr/bin/env bash
# The program `nodes`, run as a user would.
set -eu
cd "$(dirname "$0")/../.."
scratch=$(mktemp -d)
trap 'rm -rf "$scratch"' EXIT

# What standard input gives, on standard output: a name for the case, and the expected text.
expect() {
    crates/nodes/out/nodes > "$scratch/out"
    if ! printf '%s\n' "$2" | cmp -s - "$scratch/out"; then
        echo "nodes, $1: expected '$2', printed:"
        head -c 300 "$scratch/out"
        exit 1
    fi
}

# `s:N:"....";`, a string of so many bytes.
text() {
    printf 's:%d:"' "$1"
    head -c "$1" /dev/zero
    printf '";'
}

printf '' | expect 'an empty plan' 'refused 2 at 0'
printf 's:5:"basin";' | expect 'a string' '115,1,5,5,0,1'
printf 'a:1:{i:0;R:2;}' | expect 'a reference to no value' 'refused 6 at 9'
printf 'N;\n' | expect 'a newline behind the plan' 'refused 10 at 2'
text 65525 | expect '65,536 bytes' '115,1,9,65525,0,1'
text 65526 | expect '65,537 bytes' 'refused 1 at 0'
{ text 65525; sleep 0.2; printf 'x'; } | expect 'a late 65,537th byte' 'refused 1 at 0'
{ printf 's:5:"ba'; sleep 0.2; printf 'sin'; sleep 0.2; printf '";'; } | expect 'short reads' '115,1,5,5,0,1'
{ printf 'a:683:{'; for i in $(seq 0 682); do printf 'i:%d;N;' "$i"; done; printf '}'; } | expect 'more nodes than the table has room for' 'refused 7 at 5353'

# The example year: what the command prints, the first lines of which docs/FORMAT.md shows.
crates/nodes/out/nodes < examples/year.plan > "$scratch/year"
test -s "$scratch/year"
build/tonschnecke nodes examples/year.plan | diff - "$scratch/year"
echo 'nodes: as a user needs it'
