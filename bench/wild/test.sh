#!/bin/sh
# The block with its guess made wild renders every case to the same lines: a guess costs time and changes nothing.
set -e
cd "$(dirname "$0")/../.."
mkdir -p target/bench
bench/native/module.sh target/bench/block.ll
python3 bench/wild/wild.py target/bench/block.ll target/bench/wild.ll
bench/native/object.sh target/bench/wild.ll target/bench/wild.o
cc -O2 -Wall -Wextra -Iinclude bench/host/render.c bench/wild/wild.c target/bench/wild.o -o target/bench/wild
python3 bench/cases/cases.py check target/bench/wild
