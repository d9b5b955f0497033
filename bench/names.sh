#!/usr/bin/env bash
# Two ways to compare names with compression pointers: both are expanded into arrays first (expand_name, same_name), or they are compared
# side by side where they stand (same_record_name). Proves a crate that has both, measures them, and prints the tables in Markdown.
# usage: names.sh        needs rt, cargo and gcc; most of its time goes into the proofs of octets and names
set -euo pipefail
cd "$(dirname "$0")"
work=$(mktemp -d)
trap 'rm -rf "$work"' EXIT

for crate in octets names; do
    mkdir -p "$work/crates/$crate"
    cp -r "../crates/$crate/"{src,specs,proofs} "$work/crates/$crate"
    grep "^$crate:" ../crates.txt
done >"$work/crates.txt"
echo 'compare_names staticlib: octets names' >>"$work/crates.txt"
mkdir -p "$work/crates/compare_names/src"
cat >"$work/crates/compare_names/src/lib.rt" <<'END'
// Two ways to compare the names at two offsets.
#![tactic(auto)]

use names::Name;

#[unsafe(no_mangle)]
pub extern "C" fn names_side_by_side(s: &[u8], p: usize, t: &[u8], q: usize) -> bool {
    names::same_record_name(s, p, t, q)
}

#[unsafe(no_mangle)]
pub extern "C" fn names_expanded(s: &[u8], p: usize, t: &[u8], q: usize) -> bool {
    let mut a = [0u8; Name::LONGEST];
    let mut b = [0u8; Name::LONGEST];
    let x = names::expand_name(s, p, &mut a);
    let Some(m) = x else {
        return false;
    };
    let y = names::expand_name(t, q, &mut b);
    let Some(n) = y else {
        return false;
    };
    names::same_name(octets::part(&a, 0, m.len), octets::part(&b, 0, n.len))
}
END
(cd "$work/crates/compare_names" && rt lib) >"$work/log" 2>&1 || { cat "$work/log" >&2; exit 1; }

export NAMES_ARCHIVE=$work/crates/compare_names/out/libcompare_names.a
cargo run --release --quiet --features names --bin names
