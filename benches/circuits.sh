#!/bin/sh
# Times proved whole evaluation, as `ace_c_c` exports it, against plain Rust, in one run.
set -eu
cd "$(dirname "$0")/.."
work=$(mktemp -d)
trap 'rm -rf "$work"' EXIT
# shellcheck source=benches/archive.sh
. benches/archive.sh

archive_of ace_c
build="rustc --edition 2021 -O -D warnings -L $work"
$build -L "$archive" --crate-type rlib --crate-name ace bindings/rust/src/lib.rs -o "$work/libace.rlib"
$build --crate-type rlib --extern ace benches/plain_circuit.rs -o "$work/libplain_circuit.rlib"
$build --extern ace --extern plain_circuit benches/circuits.rs -o "$work/circuits"
"$work/circuits"
