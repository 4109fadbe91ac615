#!/usr/bin/env bash
# Runs rt in a folder with all that it says in a log, and prints its own lines as they come: one for each crate proved and each edit tried.
# Where it fails, the errors too, and the status is rt's: tools/rt.sh LOG FOLDER WORDS..., the words being rt's
set -u
log=$1 folder=$2
shift 2
mkdir -p "$(dirname "$log")"

# Its lines, but for what it says of its own work; and of each crate whether it is proved, with its seconds.
own_lines() { # VERB
    local line crate='' verdict began=$SECONDS
    while IFS= read -r line; do
        case $line in
        'rt: chose '* | 'rt: '*': begins with what '* | 'rt: nothing has changed '* | 'rt: running '*) ;;
        'rt: '*) printf '%s\n' "$line" ;;
        'crate '*) crate=${line#crate } crate=${crate%%:*} ;;
        'logic='*)
            verdict=${line%% *}
            # rt ci has lines of its own for that
            [ -z "$crate" ] || [ "$1" = ci ] || printf 'rt: %s: %s, in %d s\n' "$crate" "${verdict#logic=}" $((SECONDS - began))
            crate='' began=$SECONDS
            ;;
        esac
    done
}

(cd "$folder" && exec rt "$@") 2>&1 | tee "$log" | sed -un '/^rt: /p; /^crate /p; /^logic=/p' | own_lines "$1"
status=${PIPESTATUS[0]}
if [ "$status" -ne 0 ]; then
    grep -m 10 ': error' "$log" || tail -n 20 "$log"
    echo "rt failed, with status $status: $log has all that it said"
fi
exit "$status"
