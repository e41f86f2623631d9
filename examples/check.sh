#!/bin/sh
# Runs bin/judge on all examples and compares what it says, and its status, with examples/expected.txt.
# Not a part of the gate: run it by hand after a change of bin/judge.
cd "$(dirname "$0")/.." || exit 2
said=$(
    for drawing in examples/*.txt examples/bad/*.txt; do
        [ "$drawing" = examples/expected.txt ] && continue
        echo "== $drawing"
        bin/judge "$drawing" 2>&1
        echo "status $?"
    done
)
if [ "$1" = --write ]; then
    printf '%s\n' "$said" > examples/expected.txt
elif printf '%s\n' "$said" | diff examples/expected.txt - ; then
    echo "as expected"
else
    exit 1
fi
