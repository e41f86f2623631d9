#!/bin/sh
# Prints instructions per board (both colours) of judge_many and of the C++ baseline, by callgrind, for each kind and side.
# The cost of starting the program is taken off by measuring 2 and 12 boards. Needs valgrind, g++ and python3.
set -eu
cd "$(dirname "$0")/.."
ours=crates/judge_many/out/judge_many
[ -x $ours ] || (cd crates/judge_many && rt run < /dev/null >&2)
bench/build.sh
count() { # program, input
    valgrind --tool=callgrind --callgrind-out-file=/dev/null "$1" < "$2" 2>&1 > /dev/null | awk '/Collected/ { print $4 }'
}
per_board() { # program, kind, side
    python3 bench/boards.py "$2" "$3" 2 > target/bench/few
    python3 bench/boards.py "$2" "$3" 12 > target/bench/more
    echo $((($(count "$1" target/bench/more) - $(count "$1" target/bench/few)) / 10))
}
for kind in empty single snake eyes random late; do
    for side in 5 9 13 19; do
        count=$(per_board $ours "$kind" "$side")
        theirs=$(per_board target/bench/judge_many "$kind" "$side")
        echo "$kind $side $count $theirs"
    done
done
