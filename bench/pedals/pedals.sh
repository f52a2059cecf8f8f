#!/bin/sh
# pedals.sh [--count N] [--seed S] [--time RUNS] [--before MODULE.ll]: random pedals, played in blocks of 64 samples: what they cost, and which are the worst.
# pedals.sh --drives [--time RUNS] [--before MODULE.ll]: the thirteen diodes at twelve drives.
#
# 1,000 pedals unless told, of seed 1; each block is timed 3 times unless told, and the least counts. Every 20th pedal's first samples are held against the second
# program's. With --before, the numbers of another block stand beside: MODULE.ll is what module.sh makes of another commit. target/bench/pedals keeps the
# pedals, a text of each among them.
set -eu
cd "$(dirname "$0")/../.."
count=1000 seed=1 runs=3 before= drives=
while [ $# -gt 0 ]; do
    case $1 in
    --drives) drives=yes ;;
    --count | --seed | --time | --before)
        [ $# -gt 1 ] || exit 2
        case $1 in
        --count) count=$2 ;;
        --seed) seed=$2 ;;
        --time) runs=$2 ;;
        --before) before=$2 ;;
        esac
        shift
        ;;
    *)
        echo "pedals.sh [--drives | --count N --seed S] [--time RUNS] [--before MODULE.ll]" >&2
        exit 2
        ;;
    esac
    shift
done
bench/build.sh
bench/native/module.sh target/bench/block.ll

# target/bench/play$2, which times the module $1.
timed() {
    bench/native/object.sh "$1" "target/bench/play$2.o"
    cc -std=c11 -D_POSIX_C_SOURCE=199309L -O2 -Wall -Wextra -Iinclude bench/pedals/play.c "target/bench/play$2.o" -o "target/bench/play$2"
}
timed target/bench/block.ll ''
[ -z "$before" ] || timed "$before" -before
if [ -n "$drives" ]; then
    exec python3 bench/pedals/drives.py "$runs" ${before:+--before}
fi
bench/pedals/same.sh target/bench/play.o "$count" "$seed" 20
exec python3 bench/pedals/report.py "$count" "$seed" "$runs" ${before:+--before}
