#!/bin/sh
# linked.sh [NAME]: builds the proved crate NAME_c, block_c unless said, and prints the name of what a C program on this machine links: the archive that is
# shipped where that can be linked, and elsewhere the object from its module.
set -eu
cd "$(dirname "$0")/../.."
name=${1:-block}
bench/native/module.sh "target/bench/$name.ll" "$name"
linked=target/bench/$name.a
if [ "$(uname -m)" != x86_64 ]; then
    linked=target/bench/$name.o
    bench/native/object.sh "target/bench/$name.ll" "$linked"
fi
echo "$linked"
