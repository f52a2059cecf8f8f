#!/bin/sh
# Builds the bench's programs into target/bench, if something that they are made from has changed.
set -e
cd "$(dirname "$0")/.."
mkdir -p target/bench
sum=$(find bench/build.sh bench/timing.h bench/second bench/float \( -name '*.sh' -o -name '*.rs' -o -name '*.[ch]' \) -exec sha256sum {} + | sort | sha256sum)
[ "$(cat target/bench/built 2>/dev/null)" != "$sum" ] || exit 0
# Overflow would be a fault of ours, so it stops a program rather than go unseen.
rust="rustc -O -C overflow-checks=on --edition 2024"
$rust bench/second/main.rs -o target/bench/second
$rust bench/second/curve.rs -o target/bench/curve
$rust bench/second/netlist.rs -o target/bench/netlist
$rust bench/second/write.rs -o target/bench/write
$rust bench/second/parts.rs -o target/bench/parts
$rust bench/second/selftest.rs -o target/bench/selftest
$rust --crate-type staticlib --crate-name second bench/second/lib.rs -o target/bench/libsecond.a
cc -std=c11 -D_POSIX_C_SOURCE=199309L -Wall -Wextra -O3 -march=native bench/float/*.c -lm -o target/bench/float
echo "$sum" >target/bench/built
