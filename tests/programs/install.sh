#!/usr/bin/env bash
# What `make install` puts in place, used as a user would.
set -eu
cd "$(dirname "$0")/../.."
scratch=$(mktemp -d)
trap 'rm -rf "$scratch"' EXIT

# What is built needs neither prover nor compiler to be installed.
mkdir "$scratch/bin"
for tool in rt cargo gcc ar; do
    printf '#!/bin/sh\necho "%s was run: $*" >&2\nexit 1\n' "$tool" > "$scratch/bin/$tool"
    chmod +x "$scratch/bin/$tool"
done
make_alone() {
    PATH=$scratch/bin:$PATH make --silent "$@"
}

# The files below a folder, on one line.
files() {
    (cd "$1" && find . -type f | sort | tr '\n' ' ')
}

# Is it equal: what is compared, what it is, what it should be.
equal() {
    if [ "$2" != "$3" ]; then
        echo "install, $1: expected '$3', is '$2'"
        exit 1
    fi
}

all='./bin/tonschnecke ./include/tonschnecke.h ./lib/libtonschnecke.a ./lib/pkgconfig/tonschnecke.pc '

# To be packed: below another root, but for its place.
make_alone install PREFIX=/opt/ton DESTDIR="$scratch/stage"
equal 'files to be packed' "$(files "$scratch/stage/opt/ton")" "$all"
equal 'prefix in what is packed' "$(sed -n 's/^prefix=//p' "$scratch/stage/opt/ton/lib/pkgconfig/tonschnecke.pc")" /opt/ton
make_alone uninstall PREFIX=/opt/ton DESTDIR="$scratch/stage"
equal 'files left of what was packed' "$(files "$scratch/stage")" ''

# To be used: only what is installed, from another folder.
prefix="$scratch/prefix"
make_alone install PREFIX="$prefix" DESTDIR=
equal 'files' "$(files "$prefix")" "$all"
pc="$prefix/lib/pkgconfig/tonschnecke.pc"

# A line of the .pc file, its variables as the file itself sets them.
field() {
    local line name
    line=$(sed -n "s/^$1: //p" "$pc")
    for name in includedir libdir prefix; do
        line=$(printf '%s' "$line" | sed "s|\${$name}|$(sed -n "s/^$name=//p" "$pc")|")
    done
    printf '%s' "$line"
}

cflags=$(field Cflags)
libs=$(field Libs)
if command -v pkg-config > "$scratch/which"; then
    export PKG_CONFIG_PATH="$prefix/lib/pkgconfig"
    # unquoted, since pkg-config ends its line with a space
    equal 'cflags by pkg-config' "$(echo $(pkg-config --cflags tonschnecke))" "$cflags"
    equal 'libs by pkg-config' "$(echo $(pkg-config --libs tonschnecke))" "$libs"
    equal 'version by pkg-config' "$(pkg-config --modversion tonschnecke)" "$("$prefix/bin/tonschnecke" --version | sed 's/^tonschnecke //')"
fi
cp examples/insert.c "$scratch"
(cd "$scratch" && gcc -std=c99 -Wall -Wextra -Werror -pedantic $cflags insert.c $libs -o insert)
"$scratch/insert" | diff examples/insert.out -

printf 'a:3:{i:0;d:1.5;i:1;d:2.5;i:2;R:3;}' > "$scratch/plan"
"$prefix/bin/tonschnecke" insert "$scratch/plan" --quiet --in-place --array / --at 1 --key 'i:59;' --value 'd:2;'
equal 'a pair inserted by the command' "$(cat "$scratch/plan")" 'a:4:{i:0;d:1.5;i:59;d:2;i:1;d:2.5;i:2;R:4;}'
make_alone uninstall PREFIX="$prefix" DESTDIR=
equal 'files left' "$(files "$prefix")" ''
echo 'install: as a user needs it'
