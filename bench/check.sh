#!/usr/bin/env bash
# Holds the plain responder, by value and by &mut, against an independent program on random call files: every line must be the same.
# usage: check.sh [FILES] [FIRST SEED]        SECOND: the other program (../target/second/release/second)
set -eu
cd "$(dirname "$0")"
files=${1:-2000} first=${2:-0}
second=${SECOND:-../target/second/release/second}
[ -x "$second" ] || { echo "no program at $second: second/run help builds it; or name one in SECOND"; exit 2; }
cargo build --release --quiet --bin plain_calls
plain=${CARGO_TARGET_DIR:-target}/release/plain_calls
work=$(mktemp -d)
trap 'rm -rf "$work"' EXIT
differing=0 lines=0
for ((seed = first; seed < first + files; seed++)); do
    "$second" make "$seed" >"$work/calls"
    "$second" run <"$work/calls" >"$work/want"
    lines=$((lines + $(wc -l <"$work/want")))
    for form in value mut; do
        "$plain" $form <"$work/calls" >"$work/$form" || echo "ended with $?" >>"$work/$form"
        if ! cmp -s "$work/want" "$work/$form"; then
            differing=$((differing + 1))
            echo "seed $seed, $form (< second program, > plain):"
            diff "$work/want" "$work/$form" | head -n 4 | cut -c 1-300 || true
        fi
    done
done
echo "$files files, $lines lines, both forms: $differing differences"
[ "$files" -gt 0 ] && [ $differing = 0 ]
