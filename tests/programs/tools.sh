#!/usr/bin/env bash
# What is said where a tool or the archive is missing, or a tool too old.
set -eu
cd "$(dirname "$0")/../.."
scratch=$(mktemp -d)
trap 'rm -rf "$scratch"' EXIT
# what the make that runs this hands down
unset MAKEFLAGS MAKELEVEL
mkdir "$scratch/old" "$scratch/tools"

# All that is on the path, and of two by one name the first.
IFS=: read -ra folders <<< "$PATH"
for folder in "${folders[@]}"; do
    ln -s "$folder"/* "$scratch/tools" 2> "$scratch/again" || true
done

# The first line that a failing command prints must begin so: the text, the command.
first_line() {
    local line
    if line=$("${@:2}" 2>&1); then
        echo "tools: '${*:2}' did not fail"
        exit 1
    fi
    case $line in
        "$1"*) ;;
        *) echo "tools: expected '$1', '${*:2}' printed '$line'" && exit 1 ;;
    esac
}

# A tool, what is said without it, and where it is asked for.
missing() {
    local target
    rm "$scratch/tools/$1"
    for target in "${@:3}"; do first_line "$1 is missing. $2" env PATH="$scratch/tools" make "$target"; done
    ln -s "$(command -v "$1")" "$scratch/tools/$1"
}

# A tool, and what it says of its version.
too_old() {
    printf '#!/bin/sh\necho %s\n' "$2" > "$scratch/old/$1"
    chmod +x "$scratch/old/$1"
    first_line "$1 is too old: its version is '$3'. It " env PATH="$scratch/old:$PATH" make run
    rm "$scratch/old/$1"
}

missing rt 'It proves the library' all archive run
missing cargo 'It builds the command' all run
missing gcc 'It compiles what of the library is C' all archive run
too_old rt 'rattle-kit-12 logic 1' 12
too_old cargo 'cargo 1.88.0' 1.88.0
version=$(sed -n 's/^version = "\(.*\)"$/\1/p' rust/Cargo.toml)
first_line "error: tonschnecke@$version: the proved library is missing, $scratch/libtonschnecke.a: \`make archive\`" \
    env CARGO_TARGET_DIR="$scratch/cargo" TONSCHNECKE_LIB_DIR="$scratch" cargo build --quiet --manifest-path rust/tonschnecke/Cargo.toml
echo 'tools: said what is missing'
