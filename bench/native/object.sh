#!/bin/sh
# object.sh IN.ll OUT.o [FLAG..]: a module of module.sh compiled at -O3, with clang's FLAGs; for this machine's own processor unless they have a
# --target.
#
# The module lays everything out in bytes itself, addresses in eight of them. So the two lines that say where it is meant to run can give way to what
# clang itself writes there for the target.
set -eu
in=$1 out=$2
shift 2
machine=$(uname -m)
clang=$(dirname "$(rt doc)")/toolchain/bin/clang
case " $* $machine" in
*" --target="*) ;;
*x86_64) set -- --target=x86_64-unknown-linux-gnu -march=native -fPIC "$@" ;;
*aarch64) set -- --target=aarch64-unknown-linux-gnu -mcpu=native -fPIC "$@" ;;
esac
target=$(echo | "$clang" "$@" -x c -S -emit-llvm - -o - | grep '^target ')
{
    printf '%s\n' "$target"
    grep -v '^target ' "$in"
} | "$clang" -O3 "$@" -x ir -c - -o "$out"
