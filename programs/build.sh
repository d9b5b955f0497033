#!/usr/bin/env bash
# Builds indicator, ask and make_table into target/programs. The library's archive is proved and made first if it is missing.
# usage: programs/build.sh
#   ARCHIVE  the archive (crates/llmnr_c/out/libllmnr_c.a)      INCLUDE  the folder of llmnr.h (include)
#   OUT      where the programs go (target/programs)            CC       the compiler (gcc)
set -eu
here=$(cd "$(dirname "$0")" && pwd)
root=$(dirname "$here")
archive=${ARCHIVE:-$root/crates/llmnr_c/out/libllmnr_c.a}
include=${INCLUDE:-$root/include}
out=${OUT:-$root/target/programs}
flags=(-std=c99 -Wall -Wextra -Werror -pedantic -O2 -I "$include")

if [ ! -f "$archive" ]; then
    [ -z "${ARCHIVE:-}" ] || { echo "build.sh: there is no $archive" >&2; exit 1; }
    echo "rt lib in crates/llmnr_c (its log: $root/target/llmnr_c.log)"
    mkdir -p "$root/target"
    (cd "$root/crates/llmnr_c" && rt lib) >"$root/target/llmnr_c.log" 2>&1 || { tail -n 20 "$root/target/llmnr_c.log" >&2; exit 1; }
fi

# build PROGRAM FILE...: the further files that it is made of
build() {
    local program=$1 file files=("$here/$1.c")
    shift
    for file; do files+=("$here/$file"); done
    "${CC:-gcc}" "${flags[@]}" "${files[@]}" "$archive" -o "$out/$program"
    echo "$out/$program"
}

mkdir -p "$out"
build indicator net.c table.c words.c
build ask net.c words.c
build make_table table.c words.c
