#!/usr/bin/env bash
# The library for C: builds the archive (rt ci leaves none) if it is not there or a source is newer, compiles the example and the tests against include/llmnr.h, and runs them. The
# example must print examples/embed.out. The last line says what passed; the exit status is 0 only if all of it did.
# usage: tests/c.sh     ARCHIVE=another archive, which is taken as it is
set -eu
cd "$(dirname "$0")/.."
archive=${ARCHIVE:-crates/llmnr_c/out/libllmnr_c.a}
work=$(mktemp -d)
trap 'rm -rf "$work"' EXIT

# what rt makes, crates/*/out, is no source
newer() {
    find crates crates.txt -path 'crates/*/out' -prune -o \
        -type f \( -path '*/src/*' -o -path '*/specs/*' -o -path '*/proofs/*' -o -name crates.txt \) -newer "$archive" -print | head -n 1
}
if [ -z "${ARCHIVE:-}" ] && { [ ! -f "$archive" ] || [ -n "$(newer)" ]; }; then
    mkdir -p target
    (cd crates/llmnr_c && rt lib) >target/llmnr_c.log 2>&1 || { tail -n 20 target/llmnr_c.log; echo 'c: the archive was not built'; exit 1; }
fi

# The header by itself, in C and in C++; then every program, as strictly, and optimised.
flags='-Wall -Wextra -Werror -Iinclude'
gcc -std=c99 -pedantic $flags -c -x c include/llmnr.h -o "$work/header.o"
g++ -pedantic $flags -c -x c++ include/llmnr.h -o "$work/header.o"
passed=''
for program in examples/embed tests/layout tests/steps tests/orders tests/lookups tests/constants tests/ends tests/ports; do
    name=$(basename "$program")
    for level in -O0 -O2; do
        gcc -std=c99 -pedantic $flags $level "$program.c" "$archive" -o "$work/$name"
        "$work/$name" >"$work/$name.out" || { cat "$work/$name.out"; echo "c: $name failed at $level"; exit 1; }
        if [ "$name" = embed ]; then
            diff "$work/embed.out" examples/embed.out || { echo "c: embed prints something else at $level"; exit 1; }
        fi
    done
    if [ "$name" = embed ]; then passed="embed: $(wc -l <"$work/embed.out") lines"; else passed="$passed; $(cat "$work/$name.out")"; fi
done
echo "c: header in C99 and C++; $passed"
