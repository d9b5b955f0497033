#!/usr/bin/env bash
# The comparison of two names for C, against the second program's own: 100,000 random pairs of names, each asked both ways round. Then each
# planted fault of the second program must be found. Then the code in the archive is looked at: the comparison calls nothing, and its frame, with
# the 128 octets below it that a function may use, has no room for an array of 255 octets. The last line says what passed; the exit status is 0
# only if all of it did.
# usage: tests/names.sh     ARCHIVE=another archive (crates/llmnr_c/out/libllmnr_c.a, which tests/c.sh builds)
set -eu -o pipefail
cd "$(dirname "$0")/.."
archive=${ARCHIVE:-crates/llmnr_c/out/libllmnr_c.a}
work=$(mktemp -d)
trap 'rm -rf "$work"' EXIT

gcc -std=c99 -pedantic -Wall -Wextra -Werror -Iinclude -O2 tests/names.c "$archive" -o "$work/names"
if ! second/run names | "$work/names" >"$work/out"; then
    cat "$work/out"
    echo 'names: not the same as the second program'
    exit 1
fi
pairs=$(sed -n 's/^names: \([0-9]*\) pairs, [0-9]* equal, 0 differ$/\1/p' "$work/out")
[ -n "$pairs" ] || { cat "$work/out"; echo 'names: no count'; exit 1; }

found=0
for fault in first-pointer lengths shorter-label bit-5 unreadable targets case prefix; do
    second/run names --pairs 20000 --fault "$fault" >"$work/lines"
    status=0
    "$work/names" <"$work/lines" >"$work/out" || status=$?
    if [ "$status" -ne 1 ] || ! grep -q '^names: 20000 pairs, [0-9]* equal, [1-9][0-9]* differ$' "$work/out"; then
        tail -n 1 "$work/out"
        echo "names: the planted fault $fault was not found"
        exit 1
    fi
    found=$((found + 1))
done

objdump -d --no-show-raw-insn "$archive" | awk '/<llmnr_same_name>:$/ { on = 1 } NF == 0 { on = 0 } on' >"$work/code"
calls=$(grep -c '\<call' "$work/code" || true)
pushed=$(grep -c '\<push' "$work/code" || true)
frame=$((8 * pushed))
for octets in $(sed -n 's/.*\<sub  *\$\(0x[0-9a-f]*\),%rsp.*/\1/p' "$work/code"); do frame=$((frame + octets)); done
if [ ! -s "$work/code" ] || [ "$calls" -ne 0 ] || [ "$frame" -ge 127 ]; then
    echo "names: llmnr_same_name makes $calls calls and has a frame of $frame octets"
    exit 1
fi
echo "names: $pairs pairs the same, $found planted faults found; no call, and a frame of $frame octets"
