#!/bin/sh
# check.sh [DIR]: whether the vectors stored in the repository DIR (here: the one that holds this
# script) are, byte for byte, what the Rust program writes. Says so in one line; status 0 or 1.
root=${1:-$(dirname "$0")/..}
stored=$root/crates/reals
work=$(mktemp -d) || exit 1
trap 'rm -rf "$work"' EXIT

if rustc -O --edition 2021 -o "$work/reals" "$root/reference/reals.rs" 2>"$work/errors" &&
    "$work/reals" "$work" &&
    cmp -s "$work/reals.in" "$stored/data/reals.in" &&
    cmp -s "$work/reals.out" "$stored/stdout"; then
    echo "reals: the stored vectors are those of the Rust program, $(wc -l <"$work/reals.in") rows"
else
    echo "reals: the stored vectors are not those of the Rust program, or it does not compile"
    exit 1
fi
