#!/bin/sh
# test.sh [CALLS]: holds the proved krtovalin_image and krtovalin_image_version against the second program's, from C: the netlists of the examples and of the cases with
# buffers of every length, and random calls on them, damaged, 20,000 unless said. The example in C writes the images of the bench's cases.
set -e
cd "$(dirname "$0")/../.."
calls=${1:-20000}
bench/build.sh
desk=$(bench/native/linked.sh desk)
second='target/bench/libsecond.a -lpthread -ldl'
netlists='examples/*.net crates/netlist_main/data/*.net'

# A pointer whose length is 0 may be null, as the header says, since the module demands nothing of a pointer but that it is passed.
address='ptr noundef %a[0-9], i64 noundef %a[0-9]'
for call in "krtovalin_image($address, $address)" "krtovalin_image_version(i32 noundef %a0, $address, $address)"; do
    grep -q "^define noundef i64 @$call " target/bench/desk.ll || {
        echo "the module demands something else of the arguments than the header says: it has no $call"
        exit 1
    }
done

cc -O2 -Wall -Wextra -Iinclude bench/desk/compare.c "$desk" $second -lm -o target/bench/compare_images
target/bench/compare_images "$calls" $netlists
watched=$(bench/native/watched.sh target/bench/desk.ll)
if [ -n "$watched" ]; then
    cc -O2 -g -fsanitize=address -Wall -Wextra -Iinclude bench/desk/compare.c "$watched" $second -lm -o target/bench/watched_images
    # what is proved allocates nothing, and the search for leaks takes longer than thousands of calls
    ASAN_OPTIONS=detect_leaks=0 target/bench/watched_images "$calls" $netlists
fi

# Each netlist of the examples says which case it is. These cases are of version 1; in version 2, which is written unless one is said, the third byte from the end is 2.
cc -std=c99 -pedantic -O2 -Wall -Wextra -Iinclude examples/image.c "$desk" -o target/bench/image
for example in examples/*.net; do
    name=$(sed -n 's/^;.* case \([a-z_]*\)\.$/\1/p' "$example")
    image=crates/render/data/$name.image
    target/bench/image "$example" target/bench/example.image 1
    cmp target/bench/example.image "$image"
    target/bench/image "$example" target/bench/example.image
    { head -c -3 "$image" && printf '\2' && tail -c 2 "$image"; } | cmp - target/bench/example.image
done
rm target/bench/example.image
# refusal TEXT VERSION: what the example says of a text that is refused, or in a version that is; it must be what `netlist` says.
refusal() {
    if said=$(target/bench/image "$1" target/bench/example.image "$2") || [ -e target/bench/example.image ]; then
        echo "examples/image.c takes $1 in version $2"
        exit 1
    fi
    [ "$said" = "$(target/bench/netlist "-$2" "$1")" ] || {
        echo "examples/image.c says of $1 in version $2: $said"
        exit 1
    }
}
refusal crates/netlist_main/data/value_suffix.net 1
for version in 0 3 258 4294967297; do
    refusal examples/divider.net $version
done
echo "examples/image.c: the images of the cases in both versions, and what is refused"
