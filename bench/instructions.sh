#!/usr/bin/env bash
# Instructions per call, counted by callgrind, for each case and implementation: the difference of two runs, so that only calls count.
# usage: instructions.sh [CASE..]        needs valgrind
set -eu
cd "$(dirname "$0")"
cargo build --release --quiet --bin bench
bench=${CARGO_TARGET_DIR:-target}/release/bench
few=1000 many=3000
count() { # CASE IMPLEMENTATION CALLS
    valgrind --tool=callgrind --callgrind-out-file=/dev/null "$bench" --count "$@" 2>&1 | sed -n 's/.*Collected : //p'
}
cases=${*:-$("$bench" --list | sed -n 's/^cases //p')}
implementations=$("$bench" --list | sed -n 's/^implementations //p')
printf '%-14s' 'instructions'
printf '%12s' $implementations
printf '\n'
for case in $cases; do
    printf '%-14s' "$case"
    for implementation in $implementations; do
        first=$(count "$case" "$implementation" $few)
        second=$(count "$case" "$implementation" $many)
        printf '%12s' $(((second - first) / (many - few)))
    done
    printf '\n'
done
