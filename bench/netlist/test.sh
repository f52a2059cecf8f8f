#!/bin/sh
# test.sh [COUNT]: holds the proved program `netlist` against the second one, and every byte of their lines is compared: on the examples, which must be the bench's
# cases, in each version; on versions that are refused, in front of texts that are and texts that are not; on a resistor with every short value and with long ones, of which Python says too what they come to; on the largest texts, on a small one with every byte
# everywhere, and on random ones, 5,000 unless said.
# PROGRAM names another program to be held against it.
set -e
cd "$(dirname "$0")/../.."
. bench/texts.sh
count=${1:-5000}
program=${PROGRAM:-./run netlist}
bench/build.sh
room=target/bench/nets
rm -rf "$room"
mkdir -p "$room/values" "$room/texts"
for one in target/bench/netlist "$program"; do
    python3 bench/netlist/parts.py $one
done

# A version is looked at where nothing else refuses the text. Some of these would be 1 or 2 if they were cut to fewer bits.
refused=
for name in value_suffix value_zero rate_0 curve_17 curve_slope_past node_self conductance_past_ohms; do
    refused="$refused crates/netlist_main/data/$name.net -"
done
own=$(target/bench/netlist $refused)
words=
{
    for version in 0 3 10 255 256 257 258 65537 4294967298 18446744073709551617 "$(printf '9%.0s' $(seq 100))"; do
        words="$words -$version examples/divider.net - $refused"
        printf 'refused 2\n%s\n' "$own"
    done
    # The last one before a text counts, for it and all texts after it, and is a number, with zeros in front or not.
    words="$words -3 -0001 examples/divider.net - $refused examples/stiff_link.net - -2 examples/divider.net"
    target/bench/netlist -1 examples/divider.net
    echo "$own"
    target/bench/netlist -1 examples/stiff_link.net
    target/bench/netlist examples/divider.net
} >"$room/versions"
for one in target/bench/netlist "$program"; do
    $one $words | cmp - "$room/versions"
done
echo "refused versions in front of accepted and of refused texts: the same lines from both"

# The outcomes of a folder's texts in words.
outcomes() {
    printf '%s accepted' "$(ending "$1" 'greatest ')"
    for number in 14 15 2 3 4 5 6; do
        printf ', %s refused %s' "$(ending "$1" "refused $number( |$)")" $number
    done
}
values=$(python3 bench/netlist/values.py "$room/values")
hold target/bench/netlist "$program" "$room/values" net "$values" 'greatest|refused' -
cmp "$room/values/second" "$room/values/expected"
echo "$values values: $(outcomes "$room/values"); the same lines from both, and Python's"

texts=$(python3 bench/netlist/texts.py "$count" "$room/texts")
hold target/bench/netlist "$program" "$room/texts" net "$texts" 'greatest|refused' -
# The largest are the divider as it is, one byte too many, and a line that is missed after 65,535 others.
{
    target/bench/netlist examples/divider.net
    echo refused 14 line 0
    echo refused 14 line 65536
} >"$room/largest"
head -n "$(wc -l <"$room/largest")" "$room/texts/second" | cmp - "$room/largest"
echo "$texts texts, $count of them random: $(outcomes "$room/texts"); the same lines from both"
