#!/bin/sh
# count.sh [--growth] [--time RUNS [--before MODULE.ll]]: what a sample of the proved block costs, by circuit, on this machine's own processor.
# count.sh --curves [--time RUNS] [--before MODULE.ll]: nanoseconds of one net current and of one sample, by a curve's length and its voltage's stretch.
# count.sh --touching [--time RUNS] [--before MODULE.ll]: the same and a call of no samples, by a circuit's elements and by those that touch the node.
# count.sh --blocks [--time RUNS] [--before MODULE.ll]: one sample in blocks of 1 to 4,096 samples, and a call of none.
#
# Moves of a node, from a block with a counter in it; with --time also nanoseconds of the block as it is and of the f64
# simulator, the textbook's and the one that keeps its inverse, in RUNS rounds of all of them (table.py). The rows are rows.txt's, with --growth growth.txt's. --curves, --touching
# and --blocks time in any case, with 5 runs unless told. With --before, the times of another block stand beside them: MODULE.ll is what module.sh makes of
# another commit.
set -eu
cd "$(dirname "$0")/../.."
usage() {
    echo "count.sh [--growth] [--time RUNS [--before MODULE.ll]], or count.sh --curves|--touching|--blocks [--time RUNS] [--before MODULE.ll]" >&2
    exit 2
}
rows=rows runs= before= one_net= uncounted=
while [ $# -gt 0 ]; do
    case $1 in
    --growth) rows=growth ;;
    --curves | --touching) rows=${1#--} one_net=yes uncounted=yes ;;
    --blocks) rows=blocks uncounted=yes ;;
    --time)
        runs=$2
        shift
        ;;
    --before)
        before=$2
        shift
        ;;
    *) usage ;;
    esac
    shift
done
[ -z "$uncounted" ] || runs=${runs:-5}
[ -z "$before" ] || [ -n "$runs" ] || usage
mkdir -p target/bench
bench/native/module.sh target/bench/block.ll

# The program target/bench/$3, of bench/count/$2.c and the module $1.
linked() {
    bench/native/object.sh "$1" "target/bench/$3.o"
    cc -std=c11 -D_POSIX_C_SOURCE=199309L -O2 -Wall -Wextra -Iinclude "bench/count/$2.c" "target/bench/$3.o" -o "target/bench/$3"
}
# The programs that time the module $1; $2 is added to their names.
timed() {
    linked "$1" host "time$2"
    if [ -n "$one_net" ]; then
        python3 bench/count/instrument.py open "$1" "target/bench/open$2.ll"
        linked "target/bench/open$2.ll" net "net$2"
    fi
}
timed target/bench/block.ll ''
[ -z "$before" ] || timed "$before" -before
[ -z "$runs" ] || bench/build.sh
if [ -n "$uncounted" ]; then
    exec python3 "bench/count/$rows.py" "$runs" ${before:+--before}
fi
python3 bench/count/instrument.py count target/bench/block.ll target/bench/counted.ll
linked target/bench/counted.ll host count
exec python3 bench/count/table.py "bench/count/$rows.txt" ${runs:+--time "$runs"} ${before:+--before}
