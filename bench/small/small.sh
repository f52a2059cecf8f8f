#!/bin/sh
# small.sh [--soft] [--least] [--costs]: the block on a Cortex-M7: every case has the same lines there; and its code and its stack.
#
# The block's module is compiled for that processor, and the C programs that run around it here are too; qemu's mps2-an500 runs them. --soft leaves the float
# unit out, --least compiles the block for size, and --costs adds what calls take in instructions, circuit by circuit. It wants what an ordinary test does
# not, and says so where that is missing: arm-none-eabi-gcc with newlib, and qemu-system-arm.
set -eu
cd "$(dirname "$0")/../.."
target=thumbv7em-none-eabihf float='-mfpu=fpv5-d16 -mfloat-abi=hard' level=-O3 costs=
for word in "$@"; do
    case $word in
    --soft) target=thumbv7em-none-eabi float=-mfloat-abi=soft ;;
    --least) level=-Oz ;;
    --costs) costs=1 ;;
    *)
        echo "small.sh [--soft] [--least] [--costs]" >&2
        exit 2
        ;;
    esac
done
missing=
for tool in arm-none-eabi-gcc qemu-system-arm; do
    command -v "$tool" >/dev/null || missing="$missing $tool"
done
[ -n "$missing" ] || echo '#include <stdio.h>' | arm-none-eabi-gcc --specs=rdimon.specs -E - >/dev/null 2>&1 || missing=" newlib for arm-none-eabi-gcc"
if [ -n "$missing" ]; then
    echo "the Cortex-M7 is left out, for want of$missing"
    exit
fi

room=target/bench/small
mkdir -p "$room"
bench/native/module.sh target/bench/block.ll
bench/native/object.sh target/bench/block.ll "$room/block.o" --target=$target -mcpu=cortex-m7 $float $level

# built NAME SOURCE: a C program around the block, for the board. newlib declares a clock where it is told that there is one: board.c has it.
built() {
    arm-none-eabi-gcc -mcpu=cortex-m7 -mthumb $float -O2 -Wall -Wextra -Iinclude -D_POSIX_TIMERS -D_POSIX_CPUTIME --specs=rdimon.specs \
        -Wl,--section-start=.vectors=0,-z,noexecstack bench/small/board.c "$2" "$room/block.o" -o "$room/$1"
}
built render bench/host/render.c
built footprint bench/footprint/host.c
built time bench/count/host.c

echo "Cortex-M7, $float $level"
bench/footprint/code.sh "$room/block.o" arm-none-eabi-
python3 bench/cases/cases.py check bench/small/emulate.sh "$room/render"
ls crates/render/data/*.image | sed 's/\.image$//' >"$room/list"
bench/small/emulate.sh "$room/footprint" "$room/list"
[ -z "$costs" ] || python3 bench/small/costs.py "$room/time"
