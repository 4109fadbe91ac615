#!/usr/bin/env bash
# The main job, on the example year: put 29 February in, and see what changed. `make run` builds the command and runs this.
set -eu
cd "$(dirname "$0")/.."
plan=examples/year.plan
leap=build/leap.plan
scratch=$(mktemp -d)
trap 'rm -rf "$scratch"' EXIT

# A month's lines of a tree: the tree's file, the month.
month() {
    local line inside=
    while IFS= read -r line; do
        case $line in
            "    $2: "*) inside=yes ;;
            '    '[0-9]*) inside= ;;
        esac
        if [ "$inside" ]; then echo "$line"; fi
    done < "$1"
}

# A day's line of a tree: the file, the month, the day.
day() {
    month "$1" "$2" | while IFS= read -r line; do
        case $line in "      $3: "*) echo "$line" ;; esac
    done
}

# A month's first line and its last days: the file, the month, how many days.
ends() {
    local lines
    mapfile -t lines < <(month "$1" "$2")
    printf '%s\n' "${lines[0]}" '      ...' "${lines[@]: -$3}"
}

# A plan's bytes, a token to a line. No text of the year has one of these three bytes in it.
tokens() {
    local text
    text=$(< "$1")
    text=${text//;/$';\n'}
    text=${text//\{/$'{\n'}
    echo "${text//\}/$'}\n'}"
}

counts=() pairs=() raised=() others=()

# What changed from one plan to the other, token by token, by kind.
compare() {
    local old new at=0 token number
    mapfile -t old < <(tokens "$1")
    mapfile -t new < <(tokens "$2")
    for ((i = 0; i < ${#old[@]}; i++, at++)); do
        if [ "${new[at]-}${new[at + 1]-}" = 'i:29;d:9.5;' ] && [ "${old[i]}" = '}' ]; then
            pairs+=("${new[at]}${new[at + 1]}")
            at=$((at + 2))
        fi
        token=${old[i]} number=${old[i]//[!0-9]/}
        case "$token to ${new[at]-}" in
            "$token to $token") ;;
            'a:28:{ to a:29:{') counts+=("$token to ${new[at]}") ;;
            "R:$number; to R:$((10#0$number + 1));") raised+=("$token to ${new[at]}") ;;
            *) others+=("$token to ${new[at]-}") ;;
        esac
    done
    others+=("${new[@]:at}")
}

echo "The example year, $plan: the air of 2024, made from an ordinary year's calendar."
build/tonschnecke show "$plan" > "$scratch/old"
head -n 7 "$scratch/old"
echo '      ...'
ends "$scratch/old" 2 2

echo
echo '2024 is a leap year. 29 February goes in behind the 28th:'
echo "  build/tonschnecke insert $plan --array /months/2 --after 28 --int-key 29 --float 9.5 -o $leap"
build/tonschnecke insert "$plan" --array /months/2 --after 28 --int-key 29 --float 9.5 -o "$leap"
build/tonschnecke show "$leap" > "$scratch/new"
ends "$scratch/new" 2 3

compare "$plan" "$leap"
echo
echo 'Three kinds of bytes changed:'
echo "1. the count of the array: ${counts[*]}"
echo "2. the pair put in: ${pairs[*]}"
echo "3. the references to values behind it, ${#raised[@]} of them, each raised by one:"
for change in "${raised[@]:0:4}"; do echo "   $change"; done
echo '   ...'
if [ "${#counts[@]} ${#pairs[@]} ${#others[@]}" != '1 1 0' ]; then
    echo 'More than that changed, which must not be:' "${others[@]}" >&2
    exit 1
fi
echo 'Nothing else changed.'

echo
echo 'So every day has the air that it had. 10 March shares the air of an earlier day; before and after:'
day "$scratch/old" 3 10
day "$scratch/new" 3 10

text=$(< "$plan")
text=${text/'i:2;a:28:{'/'i:2;a:29:{'}
text=${text/'i:28;d:11.5;}'/'i:28;d:11.5;i:29;d:9.5;}'}
printf '%s' "$text" | build/tonschnecke show > "$scratch/by-hand"
echo 'Typed in by hand, with no reference raised, it would have had the wrong air, and nobody would have been told:'
day "$scratch/by-hand" 3 10
