#!/bin/sh
# same.sh BLOCK COUNT SEED EACH: draws pedals to target/bench/pedals and holds BLOCK, an object or an archive, against the second program on every EACH-th of them.
set -eu
cd "$(dirname "$0")/../.."
block=$1 count=$2 seed=$3 each=$4
samples=512
room=target/bench/pedals
rm -rf "$room"
mkdir -p "$room"
python3 bench/pedals/draw.py "$count" "$room" "$seed"
cc -O2 -Wall -Wextra -Iinclude bench/pedals/same.c "$block" target/bench/libsecond.a -lpthread -ldl -lm -o target/bench/same
target/bench/same "$room" "$count" "$each" "$samples"
