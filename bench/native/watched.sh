#!/bin/sh
# watched.sh NAME.ll: prints the name of an object from a module of module.sh with AddressSanitizer's tests at each access, NAME_watched.o, or says that no program
# runs with it here.
#
# What is shipped is not compiled with a sanitizer, which then sees nothing of what the proved code itself reads and writes. So random calls go twice: to what
# is linked, and to this, over buffers of exact size.
set -eu
in=$1
out=${in%.ll}_watched.o
room=$(mktemp -d)
trap 'rm -rf "$room"' EXIT
if ! echo 'int main(void) { return 0; }' | cc -fsanitize=address -x c - -o "$room/probe" 2>/dev/null || ! "$room/probe"; then
    echo "AddressSanitizer is left out: no program runs with it here" >&2
    exit
fi
sed 's/^\(define .*\) #\([0-9]*\) {$/\1 sanitize_address #\2 {/' "$in" >"$room/watched.ll"
"$(dirname "$0")/object.sh" "$room/watched.ll" "$out" -fsanitize=address
nm -u "$out" | grep -q __asan_report_load || {
    echo "nothing of $in is watched" >&2
    exit 1
}
echo "$out"
