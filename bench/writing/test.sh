#!/bin/sh
# test.sh [COUNT]: holds the proved writer of images against the second program's, and every byte that they answer and leave is compared: on every case's parts, on
# buffers of every length, at the limits and on random parts, 3,000 unless said; then the image files of `netlist`, of the examples, its cases and 1,000 random texts.
# WRITER names another program that writes raw records' images, and PROGRAM another that reads netlists, to be held against it.
set -e
cd "$(dirname "$0")/../.."
count=${1:-3000}
writer=${WRITER:-./run bench_writing}
program=${PROGRAM:-./run netlist}
bench/build.sh
room=target/bench/writing
rm -rf "$room"
mkdir "$room"
python3 bench/writing/hold.py "$count" "$room" $writer
python3 bench/writing/images.py 1000 "$room" $program
