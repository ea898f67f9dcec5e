#!/bin/sh
# Runs the program with the words given. It builds the program first where that is not done yet, or where a source is newer
# than the program, and tells on standard error what it builds. Words, streams and status go straight through.
home=$(dirname "$(readlink -f "$0")")
program=$home/crates/pq/out/pq

is_fresh() {
    [ -x "$program" ] &&
        [ -z "$(find "$home/crates" "$home/crates.txt" -name out -prune -o \( -name '*.rt' -o -name '*.antt' -o -name crates.txt \) -newer "$program" -print -quit)" ]
}

if [ ! -f "$home/scripts/build.py" ]; then
    echo "pq: this copy of ./pq is not in its checkout: make a link to it instead" >&2
    exit 70
fi
is_fresh || exec python3 "$home/scripts/build.py" run "$@"
exec "$program" "$@"
