#!/usr/bin/env bash
# Holds run_calls against the second program: on random call files, on pairs of calls in both orders, on links in simulation, and on other
# makers' captures.
#     bash tests/second.sh
# The exit status is 0 only if the two never differ, every outcome and refusal was reached, every planted fault of the second program was
# found, the order of two calls on two interfaces at one time never mattered, and docs/link.svg is the picture that the second program draws.
set -eu
cd "$(dirname "$0")/.."
PATH=$PATH:${HOME:-/root}/.cargo/bin

cargo test --release --offline --quiet --manifest-path second/Cargo.toml --target-dir target/second
second/run compare
second/run faults
second/run orders
second/run links
python3 tests/captures.py --second target/second/release/second
if ! second/run timeline | cmp - docs/link.svg; then
    echo 'docs/link.svg is not what second/run timeline prints'
    exit 1
fi
