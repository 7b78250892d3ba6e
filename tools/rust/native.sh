#!/bin/bash
# native.sh FOLDER writes FOLDER/libtameswulk.a for the machine that it runs on: the code as it stands, its contracts left out, compiled as
# Rust. That is not the proved archive. It is for tools that count instructions, which need a program of their own machine:
#   TAMESWULK_LIB=FOLDER cargo bench --offline -p beside      in oracle/
set -euo pipefail
folder=$(readlink -m "$1")
cd "$(dirname "$(readlink -f "$0")")/../.."
PATH=$PATH:$HOME/.cargo/bin
build=$(mktemp -d)
trap 'rm -rf "$build"' EXIT

known=()
crates=(bitvec bitvec_closures arena nodes walks sorting runs node_tests node_kinds wellformed factory_makers factory_core factory_bitvectors factory_data factory_helpers
    compiler compiled instruction table refusals dispatch call codec answers script tameswulk)
for crate in "${crates[@]}"; do
    mkdir "$build/$crate"
    for file in "crates/$crate"/src/*.rt; do
        # no contracts, slices passed and text printed as Rust does; native.rs has the functions that C calls
        sed -E '/^ *((pub )?ghost|requires|ensures) |^ *#!?\[(tactic\(|unsafe\(no_mangle\)|derive\(Drop\))/d
            s/std::num::wrapping_(add|sub|mul)_u64\(/u64::wrapping_\1(/; s/^pub extern "C" fn/pub fn/
            s/fmt<W: fmt::Write>/fmt/; s/Formatter<W>/Formatter/' \
            "$file" >"$build/$crate/$(basename "$file" .rt).rs"
    done
    [ "$crate" != tameswulk ] || cat tools/rust/native.rs >>"$build/tameswulk/lib.rs"
    rustc --edition 2021 -A warnings -C opt-level=3 -C codegen-units=1 -C embed-bitcode=no -g -L "$build" --crate-type rlib --crate-name "$crate" \
        "${known[@]}" -o "$build/lib$crate.rlib" "$build/$crate/lib.rs"
    known+=(--extern "$crate")
done
mkdir -p "$folder" "$build/objects"
cd "$build/objects"
for crate in "${crates[@]}"; do
    ar x "../lib$crate.rlib"
done
rm -f "$folder/libtameswulk.a"
ar crs "$folder/libtameswulk.a" ./*.o
