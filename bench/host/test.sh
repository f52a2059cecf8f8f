#!/bin/sh
# test.sh [CALLS]: holds the proved block against the second program, from C: every case, random calls, and the examples.
set -e
cd "$(dirname "$0")/../.."
calls=${1:-20000}
bench/build.sh
block=$(bench/native/linked.sh)
second='target/bench/libsecond.a -lpthread -ldl'

# A pointer whose length is 0 may be null, as the header says, since the module demands nothing of a pointer but that it is passed.
address='ptr noundef %a[0-9], i64 noundef %a[0-9]'
grep -q "^define noundef i64 @krtovalin_block($address, $address, i64 noundef %a4, $address, $address) " target/bench/block.ll || {
    echo "the module demands something else of krtovalin_block's arguments than the header says"
    exit 1
}

cc -O2 -Wall -Wextra -Iinclude bench/host/render.c "$block" -o target/bench/krtovalin
python3 bench/cases/cases.py check target/bench/krtovalin

cc -O2 -Wall -Wextra -Iinclude bench/host/compare.c "$block" $second -lm -o target/bench/compare
target/bench/compare "$calls" crates/render/data/*.image
watched=$(bench/native/watched.sh target/bench/block.ll)
if [ -n "$watched" ]; then
    cc -O2 -g -fsanitize=address -Wall -Wextra -Iinclude bench/host/compare.c "$watched" $second -lm -o target/bench/watched
    # the block allocates nothing, and the search for leaks takes longer than thousands of calls
    ASAN_OPTIONS=detect_leaks=0 target/bench/watched "$calls" crates/render/data/*.image
fi

# An example writes the same with the second program's block in place of the proved one.
for example in clipper refusal; do
    cc -std=c99 -O2 -Wall -Wextra -Iinclude "examples/$example.c" "$block" -lm -o "target/bench/$example"
    cc -std=c99 -O2 -Wall -Wextra -Iinclude -Dkrtovalin_block=second_block "examples/$example.c" $second -lm -o "target/bench/${example}_second"
    "target/bench/$example" >"target/bench/$example.lines" 2>&1
    "target/bench/${example}_second" 2>&1 | cmp - "target/bench/$example.lines"
    echo "examples/$example.c: $(wc -l <"target/bench/$example.lines") lines, the same from both"
done
