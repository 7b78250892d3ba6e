#!/bin/bash
# Prints the table of docs/notes/wellformed-cost.md for this machine: the code as it stands, its contracts left out, compiled as Rust.
set -euo pipefail
cd "$(dirname "$(readlink -f "$0")")"
crates=../../../crates
build=$(mktemp -d)
trap 'rm -rf "$build"' EXIT

# A Rattle file of a crate as Rust: no contracts, each crate a module.
as_rust() {
    sed -E "/^ *((pub )?ghost|requires|ensures) |^ *#!?\[tactic\(/d; s/\bcrate::/&$1::/g; s/\b(arena|walks|runs|node_tests|node_kinds)::/crate::&/g
        s/crate::crate::/crate::/g" "$2" >"$3"
}

for crate in arena walks runs node_tests node_kinds wellformed; do
    mkdir "$build/$crate"
    for file in "$crates/$crate"/src/*.rt; do
        as_rust "$crate" "$file" "$build/$crate/$(basename "$file" .rt).rs"
    done
    mv "$build/$crate/lib.rs" "$build/$crate/mod.rs"
done
cp main.rs "$build"
rustc --edition 2021 -A unused -C opt-level=3 -o "$build/cost" "$build/main.rs"
"$build/cost"
