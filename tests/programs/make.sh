#!/usr/bin/env bash
# What `make` does and when, and what it says where something fails: in a small project, with an rt and a cargo that only
# note their words and do as they are told. What is C there is compiled.
set -eu
cd "$(dirname "$0")/../.."
scratch=$(mktemp -d)
trap 'rm -rf "$scratch"' EXIT
# what the make that runs this hands down
unset MAKEFLAGS MAKELEVEL

mkdir "$scratch/bin"
cat > "$scratch/bin/rt" <<'END'
#!/bin/sh
here=$PWD
[ "${1#--}" = version ] || echo "rt $1 ${here#"$PROJECT"}" >> "$PROJECT/calls"
case $1 in
    version | --version) echo rattle-kit-13f ;;
    lib | run)
        name=$(basename "$here")
        echo "rt: chose --jobs 2 for $name"
        echo 'fn of_a_crate: proved'
        [ ! -e "$PROJECT/unproved" ] || echo 'of_a_crate.rt:1:1: error: not so'
        echo "crate $name: modules loaded=0 checked=7"
        [ -e "$PROJECT/unproved" ] && echo 'logic=not-proved functions=1' && exit 1
        echo 'logic=proved functions=1'
        mkdir -p out && cd out
        case $1 in
            lib) cat ../../*/src/* > tonschnecke.o && rm -f libtonschnecke.a && ar rc libtonschnecke.a tonschnecke.o ;;
            run) printf '#!/bin/sh\ncat\n' > "$name" && chmod +x "$name" && "./$name" ;;
        esac ;;
    ci)
        echo 'fn of_a_crate: proved'
        [ ! -e unproved ] || echo 'of_a_crate.rt:1:1: error: not so'
        echo 'rt: a crate proved'
        if [ -e unproved ]; then echo '6 passed, 1 failed'; exit 1; fi
        [ ! -e bad ] || echo 'rt: must-fail format/an.edit: BAD EDIT: it changes nothing'
        [ -e unsaid ] || echo "rt: ok; handles allowed: none; must-fail edits: 3 refused, 1 of them only by a limit$(cat bad 2> /dev/null); done in this run: 2 of the 3 proofs"
        echo '7 passed, 0 failed' ;;
esac
END
cat > "$scratch/bin/cargo" <<'END'
#!/bin/sh
case $1 in
    --version) echo cargo 1.95.0 ;;
    build)
        mkdir -p build/cargo/release && cd build/cargo/release && echo command > tonschnecke
        printf '#!/bin/sh\necho compared\n[ ! -e differing ]\n' > differential && chmod +x differential ;;
    test) [ ! -e failing ] ;;
esac
END
chmod +x "$scratch/bin/rt" "$scratch/bin/cargo"
PATH=$scratch/bin:$PATH

project=$scratch/project
export PROJECT=$project
mkdir -p "$project"/crates/{tonschnecke,format,nodes}/src "$project"/crates/format/{proofs,must-fail} "$project"/{c,include,examples,rust,tests/programs}
cp -r Makefile tools "$project"
cp rust/Cargo.toml "$project/rust"
cd "$project"
echo library | tee crates/{tonschnecke,format}/src/lib.rt crates/format/proofs/Lib.antt > crates/nodes/src/main.rt
echo '#define CODE 7' > include/tonschnecke.h
printf '#include "tonschnecke.h"\nextern int ton_code;\nint ton_code = CODE;\n' > c/code.c
printf 'format:\ntonschnecke staticlib: format\nnodes: format\n' > crates.txt
echo a plan | tee crates/nodes/stdin > crates/nodes/stdout
printf '#!/bin/sh\necho "the main job"\n' > examples/run.sh
printf '#!/bin/sh\n' > tests/programs/none.sh
chmod +x examples/run.sh tests/programs/none.sh

# Is it equal: what is compared, what it is, what it should be.
equal() {
    if [ "$2" != "$3" ]; then
        echo "make, $1: expected '$3', is '$2'"
        exit 1
    fi
}

# Runs make: why, its words, the status to expect, and what rt is to be called for. `printed` is what it said.
expect() {
    local status=0
    : > calls
    printed=$(make $2 2>&1) || status=$?
    equal "$1, status" "$status" "$3"
    equal "$1, calls of rt" "$(sed 's/^rt //; s| /crates/| |; s/ $//' calls | tr '\n' ' ')" "$4"
}

last() {
    printf '%s\n' "$printed" | tail -n "$1" | head -n 1
}

# Is the archive made of what rt made and of what is C: why.
expect_archive() {
    equal "$1, what is proved in the archive" "$(ar p build/libtonschnecke.a tonschnecke.o)" "$(cat crates/tonschnecke/out/tonschnecke.o)"
    mkdir compiled
    for file in c/*.c; do gcc -std=c99 -O2 -fPIC -Iinclude -c "$file" -o "compiled/$(basename "$file" .c).o"; done
    equal "$1, the archive" "$(ar t build/libtonschnecke.a)" $'tonschnecke.o\n'"$(cd compiled && ls)"
    for object in compiled/*; do ar p build/libtonschnecke.a "$(basename "$object")" | cmp - "$object"; done
    rm -r compiled
}

expect 'from nothing' run 0 'lib tonschnecke '
equal 'lines before the main job' "$(printf '%s\n' "$printed" | tail -n +2 | sed 's/ in [0-9]* s$//')" $'rt: tonschnecke: proved,\nthe main job'
equal 'the log' "$(cat build/prove.log)" \
    $'rt: chose --jobs 2 for tonschnecke\nfn of_a_crate: proved\ncrate tonschnecke: modules loaded=0 checked=7\nlogic=proved functions=1'
expect_archive 'from nothing'
expect 'nothing changed' run 0 ''
equal 'nothing changed, printed' "$printed" 'the main job'
expect 'the programs, which are missing still' all 0 'run nodes '
equal 'the programs, printed' "$(last 1 | sed 's/ in [0-9]* s$//')" 'rt: nodes: proved,'
echo another plan > crates/nodes/stdout
expect 'a program that prints something else' all 2 'run nodes '
equal 'a program that prints something else, the error' "$(printf '%s\n' "$printed" | grep -c 'crates/nodes/stdout differ')" 1
cp crates/nodes/stdin crates/nodes/stdout

echo changed > crates/format/proofs/Lib.antt
expect 'a changed file' run 0 'lib tonschnecke '
mkdir crates/format/specs
echo new > crates/format/specs/New.antt
expect 'a new file' run 0 'lib tonschnecke '
rm crates/format/specs/New.antt
expect 'a removed file' run 0 'lib tonschnecke '
mv crates/format/proofs/Lib.antt crates/format/proofs/Other.antt
expect 'a renamed file' run 0 'lib tonschnecke '
echo 'io:' >> crates.txt
expect 'another crates.txt' run 0 'lib tonschnecke '
touch crates/format/src/lib.rt
echo edit > crates/format/must-fail/an.edit
echo changed > crates/nodes/src/main.rt
expect 'what the archive is not made of' run 0 ''

# what is C proves nothing
echo '#define CODE 8' > include/tonschnecke.h
expect 'a changed header' run 0 ''
equal 'a changed header, printed' "$printed" 'the main job'
expect_archive 'a changed header'
sed 's/ton_code/ton_other/' c/code.c > c/other.c
expect 'a new file of C' run 0 ''
expect_archive 'a new file of C'
touch -d '1 hour ago' c/code.c
mv c/code.c c/other.c
expect 'a removed file of C, another changed and old' run 0 ''
expect_archive 'a removed file of C, another changed and old'
touch c/other.c build/marker
expect 'a file of C as it was' run 0 ''
equal 'a file of C as it was, what is built' "$(find build -newer build/marker -name '*.a')" ''
# before the other, which is compiled
echo 'extern int ton_bad' > c/bad.c
for time in first second; do
    expect "wrong C, the $time time" run 2 ''
    equal "wrong C, the $time time, the error" "$(printf '%s\n' "$printed" | grep -c '^c/bad.c:1:.*error')" 1
done
rm c/bad.c

touch unproved
expect 'a broken proof that nothing asks for' run 0 ''
echo changed > crates/format/src/lib.rt
for time in first second; do
    expect "a broken proof, the $time time" run 2 'lib tonschnecke '
    equal 'a broken proof, the error' "$(last 3)" 'of_a_crate.rt:1:1: error: not so'
done
expect 'the gate with a broken proof' 'test --silent' 2 'ci '
equal 'the gate with a broken proof, its verdict' "$(last 2)" '6 passed, 1 failed'
rm unproved
expect 'the proof repaired' run 0 'lib tonschnecke '

for bad in ', 1 bad' ', 12 bad'; do
    echo "$bad" > bad
    expect "the gate with$bad edits" 'test --silent' 2 'ci '
    equal "the gate with$bad edits, its verdict" "$(printf '%s\n' "$printed" | grep -c ' passed, ')" 0
    equal "the gate with$bad edits, which" "$(last 2)" 'rt: must-fail format/an.edit: BAD EDIT: it changes nothing'
done
rm bad
touch unsaid
expect 'the gate with no word that all is well' test 2 'ci '
rm unsaid
echo old > build/libtonschnecke.a
expect 'the gate' test 0 'ci lib tonschnecke run nodes '
equal 'the gate, its verdict' "$(last 1)" '7 passed, 0 failed'
expect_archive 'the gate'
touch differing
expect 'the gate with a library that differs' test 2 'ci lib tonschnecke run nodes '
equal 'the gate with a library that differs, its verdict' "$(printf '%s\n' "$printed" | grep -c -e ' passed, ' -e '^compared$')" 1
rm differing
touch failing
expect 'the gate with a failing test' test 2 'ci lib tonschnecke run nodes '
equal 'the gate with a failing test, its verdict' "$(printf '%s\n' "$printed" | grep -c ' passed, ')" 0
rm failing
expect 'nothing left behind' clean 0 ''
equal 'nothing left behind, what is built' "$(ls -d build crates/*/out 2> /dev/null)" ''
echo 'make: as a user needs it'
