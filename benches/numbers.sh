#!/bin/sh
# Times the proved numbers of seven-bit groups, as `numbers_c_c` exports them, against
# plain Rust, in one run.
set -eu
cd "$(dirname "$0")/.."
work=$(mktemp -d)
trap 'rm -rf "$work"' EXIT
# shellcheck source=benches/archive.sh
. benches/archive.sh

archive_of numbers_c
build="rustc --edition 2021 -O -D warnings"
$build --crate-type rlib benches/plain.rs -o "$work/libplain.rlib"
$build -L "$archive" --extern "plain=$work/libplain.rlib" benches/numbers.rs -o "$work/numbers"
"$work/numbers"
