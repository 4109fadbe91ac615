#!/usr/bin/env bash
# The examples, compiled as a user would, as C and as C++, and with sanitizers, which watch the examples' own code: the archive
# is not built with them.
set -eu
cd "$(dirname "$0")/../.."
scratch=$(mktemp -d)
trap 'rm -rf "$scratch"' EXIT

languages=('gcc -x c -std=c99')
if command -v g++ > /dev/null; then
    languages+=('g++ -x c++ -std=c++11')
else
    echo 'examples: not compiled as C++, since g++ is not installed'
fi
sanitizers='-g -fsanitize=address,undefined -fno-sanitize-recover=all'
for language in "${languages[@]}"; do
    for example in read canonicalize insert day; do
        for checks in "$sanitizers" ''; do
            # unquoted, since they are several words or none
            $language -Wall -Wextra -Werror -pedantic $checks -Iinclude "examples/$example.c" -x none build/libtonschnecke.a \
                -o "$scratch/$example"
            "$scratch/$example" < examples/year.plan > "$scratch/out"
            diff "examples/$example.out" "$scratch/out"
        done
    done
done
echo 'examples: as a user compiles them'
