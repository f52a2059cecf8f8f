#!/bin/sh
# module.sh OUT.ll [NAME]: the LLVM module of the proved crate NAME_c, which exports what NAME does to C, as text; NAME is `block` unless said. Beside it
# OUT.a, the archive that is shipped, from the same run.
#
# `rt lib` compiles for x86-64 alone, and for all of them: on an Arm machine its archive links into nothing, and an emulated time says nothing. So the
# module is taken on its way to the toolchain's clang, which is a link here to a script that keeps a copy; the toolchain itself stays as it is. object.sh
# compiles the module for this machine's processor or another one.
set -eu
cd "$(dirname "$0")/../.."
out=$1 name=${2:-block}
crate=${name}_c
home=$(dirname "$(rt doc)")

# Both are made anew only if something that they are made from has changed: proving and compiling takes half a minute, once what they use is proved.
sum=$(find crates crates.txt bench/native/module.sh "$home/KIT-ID" -path 'crates/*/out' -prune -o -type f -exec sha256sum {} + | sort | sha256sum)
made="; $crate, made from ${sum%% *}"
if [ -e "${out%.ll}.a" ] && [ -e "$out" ] && [ "$(head -n 1 "$out")" = "$made" ]; then
    exit
fi
room=$(mktemp -d)
trap 'rm -rf "$room"' EXIT

# linked FROM TO NAME..: links in folder TO to all that stands in folder FROM, but for these names.
linked() {
    from=$1 to=$2
    shift 2
    mkdir -p "$to"
    for file in "$from"/*; do
        case " $* " in *" $(basename "$file") "*) ;; *) ln -s "$file" "$to/" ;; esac
    done
}
kit=$room/kit
linked "$home" "$kit" bin toolchain
linked "$home/bin" "$kit/bin" rt rtlib.py
# Copies, since rt finds all else from where these two files are.
cp "$home/bin/rt" "$home/bin/rtlib.py" "$kit/bin/"
linked "$home/toolchain" "$kit/toolchain" bin
linked "$home/toolchain/bin" "$kit/toolchain/bin" clang
cat >"$kit/toolchain/bin/clang" <<END
#!/bin/sh
for word in "\$@"; do case \$word in *.bc) cp "\$word" "$room/module.bc" ;; esac; done
exec "$home/toolchain/bin/clang" "\$@"
END
chmod +x "$kit/toolchain/bin/clang"
# The toolchain as it is proves first: it alone knows what this machine's checkouts keep of the crates below.
(cd "crates/$crate" && rt check && "$kit/bin/rt" lib) >&2

"$home/toolchain/bin/clang" --target=x86_64-unknown-linux-gnu -x ir -S -emit-llvm -O0 "$room/module.bc" -o "$room/module.ll"
mkdir -p "$(dirname "$out")"
cp "crates/$crate/out/lib$crate.a" "${out%.ll}.a"
# The processor that the module names gives way to the one that it is compiled for.
{
    echo "$made"
    sed 's/"target-cpu"="[^"]*"//; s/"target-features"="[^"]*"//' "$room/module.ll"
} >"$out"
