#!/bin/sh
# Prints instructions per move of referee_record by callgrind; the same board without moves is taken off. Needs valgrind and python3.
set -eu
cd "$(dirname "$0")/.."
program=crates/referee_record/out/referee_record
# it is run once, on nothing, which it refuses
[ -x $program ] || (cd crates/referee_record && rt run < /dev/null >&2) || [ -x $program ]
mkdir -p target/bench
count() { # input
    valgrind --tool=callgrind --callgrind-out-file=/dev/null $program < "$1" 2>&1 > /dev/null | awk '/Collected/ { print $4 }'
}
for record in "3 20" "5 20" "7 80" "9 20" "9 40" "9 80" "2 60" "2 600" "2 6000" "2 60000"; do
    set -- $record
    PYTHONDONTWRITEBYTECODE=1 python3 bench/records.py "$1" "$2" > target/bench/record
    PYTHONDONTWRITEBYTECODE=1 python3 bench/records.py "$1" 0 > target/bench/start
    moves=$((($(wc -c < target/bench/record) - $(wc -c < target/bench/start)) / 2))
    echo "$1 x $1, $moves moves: $((($(count target/bench/record) - $(count target/bench/start)) / moves)), $($program < target/bench/record | tail -n 1)"
done
