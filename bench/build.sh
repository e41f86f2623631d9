#!/bin/sh
# Builds the plain C++ judge that docs/PERFORMANCE.md compares with.
set -eu
cd "$(dirname "$0")"
mkdir -p ../target/bench
g++ -O3 -o ../target/bench/judge_many judge_many.cpp
