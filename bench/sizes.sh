#!/usr/bin/env bash
# The size of the archive's code and data, of the state structs, and of the stack that a call uses.
# usage: sizes.sh        LLMNR_ARCHIVE: the archive (../crates/llmnr_c/out/libllmnr_c.a)
set -eu
cd "$(dirname "$0")"
cargo build --release --quiet --bin bench
bench=${CARGO_TARGET_DIR:-target}/release/bench
echo "code and data of the archive, in octets"
size -t "${LLMNR_ARCHIVE:-../crates/llmnr_c/out/libllmnr_c.a}"
echo
"$bench" --sizes
echo
"$bench" --stack
