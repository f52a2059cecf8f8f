#!/bin/sh
# test.sh [COUNT]: holds the proved program `parts` against the second one on every image of the bench and of its own crate, and on random ones, 500 unless said; every byte of
# their lines is compared. Then `netlist` reads the texts back, each in the version that its comment says, the second one and the proved one, and must find the parts that
# Python finds in the images, and write the same images.
# PROGRAM and NETLIST name other programs to be held against them.
set -e
cd "$(dirname "$0")/../.."
drawn=${1:-500}
program=${PROGRAM:-./run parts}
netlist=${NETLIST:-./run netlist}
bench/build.sh
room=target/bench/back
rm -rf "$room"
mkdir "$room"

# Of image number i the text is i.net. One that is no netlist is the reason why.
images=$(echo crates/render/data/*.image crates/parts/data/*.image && python3 bench/parts/images.py "$drawn" "$room/drawn")
i=0
pairs=
for image in $images; do
    text=$room/$i.net
    target/bench/parts "$image" >"$text"
    cat "$text" >>"$room/second"
    version=$(sed -n '1s/^; version //p' "$text")
    if [ -n "$version" ]; then
        cp "$image" "$room/$i.image"
        pairs="$pairs -$version $text $room/$i.back"
    else
        cat "$text" >>"$room/reasons"
    fi
    i=$((i + 1))
done
$program $images >"$room/other"
cmp "$room/second" "$room/other"
count() { grep -c "^$1 " "$room/second"; }
echo "$i images: $(count drives) netlists, $(count refused) refused, $(count unnamed) whose last node nothing names; the same lines from both"

# round_trip NETLIST: what NETLIST finds in the texts is what Python finds in their images, and the reasons are Python's too. The image that it writes of a text is the one
# that the text was made from, byte for byte.
round_trip() {
    rm -f "$room"/*.back
    { $1 $pairs && cat "$room/reasons"; } | cmp - "$room/expected"
    for image in "$room"/*.image; do
        cmp "$image" "${image%.image}.back"
    done
}
python3 bench/parts/back.py $images >"$room/expected"
for one in target/bench/netlist "$netlist"; do
    round_trip "$one"
done
echo "$(count drives) netlists, $(grep -cx '; version 2' "$room/second") of them of version 2, are read back to their images by both"
