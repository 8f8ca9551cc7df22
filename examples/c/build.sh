#!/usr/bin/env bash
# Builds the library for C: examples/c/build.sh DIR
# DIR gets libavr_records.a, and avr_records.pc for pkg-config. Where install.sh puts that file, it names the library's
# folder. If there is a C compiler, DIR also gets the shared library libavr_records.so.N, and the symbolic link
# libavr_records.so to it. N changes with each incompatible version: it is MAJOR, or 0.MINOR before version 1.0. `rt lib`
# makes the archive from crates/avr_records_c, unless the last one was made from the same sources; the kit's calls of
# malloc, realloc and free are added. Both libraries export only the functions of include/avr_records.h.
set -eu
mkdir -p "$1"
dir=$(realpath "$1")
top=$(dirname "$(readlink -f "$0")")/../..
version=$(cat "$top/VERSION")
number=${version%%.*}
[ "$number" != 0 ] || number=${version%.*}
shared=libavr_records.so.$number
cd "$top/crates/avr_records_c"
proved=$PWD/out/libavr_records_c.a
# Prints the sum of the sources.
sum() {
    find ../../crates.txt ../*/{src,specs,proofs} -type f -print0 2>/dev/null | LC_ALL=C sort -z | xargs -0 sha256sum | sha256sum
}
sources=$(sum)
if [ ! -e "$proved" ] || [ "$(cat out/built-from 2>/dev/null)" != "$sources $(sha256sum <"$proved")" ]; then
    rt lib
    [ "$(sum)" = "$sources" ] || { echo "build.sh: error: the sources changed during the build: build it again" >&2 && exit 1; }
    echo "$sources $(sha256sum <"$proved")" >out/built-from
fi
cd "$dir"
ar x "$(dirname "$(rt doc)")/c/liblibc_c.a" heap.pic.o
# one object, in which all other names are local, so that a program can also link another Rattle library
ld -r -o avr_records.o --whole-archive "$proved" --no-whole-archive heap.pic.o
objcopy --wildcard --keep-global-symbol='avr_records_*' avr_records.o
# (without a C compiler no older shared library stays)
rm -f libavr_records.a libavr_records.so "$shared"
ar rcsD libavr_records.a avr_records.o
rm heap.pic.o avr_records.o
cat >avr_records.pc <<END
prefix=\${pcfiledir}/../..
libdir=\${prefix}/lib
includedir=\${prefix}/include

Name: avr_records
Description: Intel HEX and Motorola S-records, read into a memory and written from one
Version: $version
Libs: -L\${libdir} -lavr_records
Cflags: -I\${includedir}
END
command -v "${CC:-cc}" >/dev/null || exit 0
"${CC:-cc}" -shared -o "$shared" -Wl,-soname,"$shared" -Wl,--whole-archive libavr_records.a -Wl,--no-whole-archive
ln -sf "$shared" libavr_records.so
