#!/bin/sh
# Builds the bench and checks it: the second program against brute force, the cases, what bench crates are to print, the f64 simulator against the cases.
set -e
cd "$(dirname "$0")/.."
bench/build.sh
target/bench/selftest
python3 bench/cases/cases.py check target/bench/second
python3 bench/cases/pairs.py check target/bench/curve
python3 bench/cases/nets.py check target/bench/netlist
python3 bench/writing/limits.py check target/bench/write
python3 bench/circuit/model.py crates/bench_circuit/src/cases.rt | cmp - crates/bench_circuit/stdout
python3 bench/image/model.py crates/bench_image/src | cmp - crates/bench_image/stdout
python3 bench/solve/model.py crates/bench_solve/src target/bench/libsecond.a | cmp - crates/bench_solve/stdout
python3 bench/float/compare.py target/bench/float
