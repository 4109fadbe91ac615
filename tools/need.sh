#!/usr/bin/env bash
# Says which of these tools are missing or too old, what they are for and how to get them: tools/need.sh [rt] [cargo] [gcc]
set -eu
cd "$(dirname "$0")/.."
rust=$(sed -n 's/^rust-version = "\(.*\)"$/\1/p' rust/Cargo.toml)
status=0

# A tool, the lowest version that will do, what it is for and how to get it.
need() {
    local version
    if ! command -v "$1" > /dev/null; then
        echo "$1 is missing. $3" >&2
        status=1
        return
    fi
    version=$("$1" --version | grep -o '[0-9][0-9.]*' | head -n 1)
    if [ "$(printf '%s\n' "$2" "$version" | sort -V | head -n 1)" != "$2" ]; then
        echo "$1 is too old: its version is '$version'. $3" >&2
        status=1
    fi
}

for tool in "$@"; do
    case $tool in
        rt) need rt 13 'It proves the library and compiles it: put the folder bin/ of the Rattle kit, rattle-kit-13f, on the PATH.' ;;
        cargo) need cargo "$rust" "It builds the command and the tests: install Rust $rust or newer, as https://rustup.rs tells." ;;
        gcc) need gcc 0 'It compiles what of the library is C, and links the command: apt-get install gcc libc6-dev' ;;
    esac
done
exit "$status"
