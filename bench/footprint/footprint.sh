#!/bin/sh
# footprint.sh: what the exported call takes of a host: bytes of code with everything it pulls in, and bytes of stack at its deepest over all of
# bench/cases, of what a C program on this machine links.
set -eu
cd "$(dirname "$0")/../.."
block=$(bench/native/linked.sh)
bench/footprint/code.sh "$block"
cc -O2 -Wall -Wextra -Iinclude bench/footprint/host.c "$block" -lpthread -o target/bench/footprint
ls crates/render/data/*.image | sed 's/\.image$//' >target/bench/list
target/bench/footprint target/bench/list
