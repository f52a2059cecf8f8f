#!/bin/sh
# emulate.sh PROGRAM ARGUMENT..: runs a program for the board in the emulator. It reads this machine's files and writes to its output.
arguments=
for word in "$@"; do
    arguments=$arguments,arg=$word
done
exec qemu-system-arm -M mps2-an500 -icount shift=0 -nographic -monitor none -serial none -kernel "$1" \
    -semihosting-config "enable=on,target=native$arguments"
