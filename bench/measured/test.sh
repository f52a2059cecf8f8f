#!/bin/sh
# test.sh [COUNT]: holds the proved program `curve` against the second one on random lists, 10,000 unless said; every byte of their lines is compared. Before that
# the example: the measured diode is one of the cases, and its curve is the one of the bench and of the netlist in examples/.
# PROGRAM names another program to be held against it.
set -e
cd "$(dirname "$0")/../.."
. bench/texts.sh
count=${1:-10000}
program=${PROGRAM:-./run curve}
bench/build.sh
room=target/bench/measured
rm -rf "$room"
mkdir "$room"
cmp examples/diode.pairs crates/curve/data/diode.pairs
slopes=$(target/bench/curve examples/diode.pairs | sed -n 's/^slopes //p')
breakpoints=$(target/bench/curve examples/diode.pairs | sed -n 's/^breakpoints //p')
grep -qxF "curve DIO slopes $slopes breakpoints $breakpoints" bench/cases/circuits.txt || {
    echo "the diode's curve is not the curve DIO of bench/cases/circuits.txt"
    exit 1
}
# A netlist has them in turn.
turns=$(echo "$slopes $breakpoints" | awk '{ n = (NF + 1) / 2; printf "curve %s", $1; for (i = 2; i <= n; i++) printf " %s %s", $(n + i - 1), $i }')
grep -qxF "$turns" examples/clipper.net || {
    echo "the diode's curve is not the curve of examples/clipper.net"
    exit 1
}
echo "examples/diode.pairs: the diode of the bench's cases, and of examples/clipper.net"

python3 bench/measured/lists.py "$count" "$room"
hold target/bench/curve "$program" "$room" pairs "$count" 'breakpoints|refused'
curves=$(ending "$room" 'breakpoints ') twelve=$(ending "$room" 'refused 12$') thirteen=$(ending "$room" 'refused 13$')
[ $((curves + twelve + thirteen)) = "$count" ] || {
    echo "$count lists have $((curves + twelve + thirteen)) endings"
    exit 1
}
echo "$count lists: $curves curves, $twelve refused 12, $thirteen refused 13; the same lines from both"
