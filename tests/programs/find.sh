#!/usr/bin/env bash
# ton_find reads nothing outside of what is lent, whatever the table says: its code with sanitizers, on tables of any words.
set -eu
cd "$(dirname "$0")/../.."
scratch=$(mktemp -d)
trap 'rm -rf "$scratch"' EXIT

gcc -std=c99 -O1 -g -Wall -Wextra -Werror -pedantic -fsanitize=address,undefined -fno-sanitize-recover=all -Iinclude \
    tests/programs/find.c c/find.c build/libtonschnecke.a -o "$scratch/find"
found=$("$scratch/find")
echo "find: $found paths led somewhere, and none outside"
