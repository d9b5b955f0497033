#!/usr/bin/env bash
# The instructions that calls take in the archive: the start of a lookup, for names of one label and of several; a response that stops a name; and
# the start of a name. Counted by callgrind, as the difference of two runs.
#
# usage: bench/starts.sh        needs gcc and valgrind; LLMNR_ARCHIVE is the archive (crates/llmnr_c/out/libllmnr_c.a)
set -eu
cd "$(dirname "$0")"
work=$(mktemp -d)
trap 'rm -rf "$work"' EXIT
gcc -std=c11 -O2 -Wall -Wextra -Werror -I../include -o "$work/starts" starts.c "${LLMNR_ARCHIVE:-../crates/llmnr_c/out/libllmnr_c.a}"
few=1000 many=3000
count() { # CASE CALLS
    valgrind --tool=callgrind --callgrind-out-file=/dev/null "$work/starts" "$@" 2>&1 | sed -n 's/.*Collected : //p'
}
k=0
for case in 'scale3' 'scale3.plant, with permission' 'scale3.plant, refused with 22' 'x.ip6.arpa' '4.3.2.1.in-addr.arpa' \
    'stopped, one answer' 'stopped, no answer' 'stopped, an answer cut short' 'start of a name' 'start, refused with 21' 'start of a stopped name'; do
    printf '%-32s%6d\n' "$case" $((($(count $k $many) - $(count $k $few)) / (many - few)))
    k=$((k + 1))
done
