#!/usr/bin/env bash
# The edits of crates/*/wrong can be applied: what `make wrong` tries would rot otherwise, since the gate does not try it.
set -eu
exec "$(dirname "$0")/../../tools/wrong.sh" --fit
