#!/bin/sh
# Nothing to measure today: it is of a judge_board that prints rows of moves, and of the commands of an older kit (docs/PORT.md).
# Prints what all rows of moves of one board cost: instructions of judge_board by callgrind, without starting the program and
# without judging, with the number of rows and of their moves. judge_board lends memory for 81 points; here it is built in a copy
# under target/bench that lends it for 361. Needs valgrind and python3.
set -eu
cd "$(dirname "$0")/.."
copy=target/bench/rows
if [ ! -x $copy/target/bin/judge_board ]; then
    rm -rf $copy
    mkdir -p $copy
    # what is proved already is not proved again
    tar -cf - --exclude=target/bench --exclude=target/must-fail crates.txt crates target | tar -xf - -C $copy
    rm -f $copy/target/bin/judge_board
    sed -i 's/LENT_POINTS: usize = 81/LENT_POINTS: usize = 361/' $copy/crates/judge_board/src/main.rt
    sed -i 's/≡ 81/≡ 361/' $copy/crates/judge_board/proofs/print_rows/Choices.antt
    # the program is run once on its own example, which it answers as before
    (cd $copy && rt check judge_board >&2)
fi
[ -x target/bin/judge_many ] || rt check judge_many >&2
count() { # program, input
    valgrind --tool=callgrind --callgrind-out-file=/dev/null "$1" < "$2" 2>&1 > /dev/null | awk '/Collected/ { print $4 }'
}
judging() { # kind, side: both colours of one board
    python3 bench/boards.py "$1" "$2" 1 > target/bench/one
    : > target/bench/none
    echo $(($(count target/bin/judge_many target/bench/one) - $(count target/bin/judge_many target/bench/none)))
}
for kind in sparse random late; do
    for side in 9 13 19; do
        python3 bench/boards.py "$kind" "$side" 1 > target/bench/board
        : > target/bench/none
        whole=$(count $copy/target/bin/judge_board target/bench/board)
        start=$(count $copy/target/bin/judge_board target/bench/none)
        judged=$(judging "$kind" "$side")
        $copy/target/bin/judge_board < target/bench/board | awk -v kind="$kind" -v side="$side" -v all=$((whole - start - judged)) '
            $3 == "taken" { rows++; moves += NF - 4 }
            END { print kind, side, "rows", rows + 0, "moves", moves + 0, "instructions", all, "a move", moves ? int(all / moves) : 0 }'
    done
done
