#!/bin/bash
# Proves and builds the library, unless TAMESWULK_LIB names a folder with the archive, and runs the tests, the example and the documentation of
# the Rust crate over it, with nothing from the network but Debian's packages. Ends with status 77 where there is no cargo, or no way to run
# x86-64 programs.
set -euo pipefail
cd "$(dirname "$(readlink -f "$0")")/../.."
source tools/rust/quietly.sh rust
source tools/rust/cross.sh rust

if [ -z "${TAMESWULK_LIB:-}" ]; then
    # an archive is built anew, so that no older one is tested
    rm -f crates/tameswulk/out/libtameswulk.a
    quietly env -C crates/tameswulk rt lib
    # what a program that links it has to bring along
    wanted=$(nm -u crates/tameswulk/out/libtameswulk.a | awk '$1 == "U" && $2 != "memcpy" && $2 != "memset" { print $2 }')
    [ -z "$wanted" ] || {
        echo "rust: the archive wants more from outside than memcpy and memset:" $wanted
        exit 1
    }
fi
cd rust
quietly cargo test --offline
echo "rust: $(awk '/^test result: ok/ { n += $4 } END { print n }' "$log") tests passed"
quietly cargo run --offline --quiet --example version
cmp "$log" examples/version.stdout
quietly env RUSTDOCFLAGS=-Dwarnings cargo doc --offline --no-deps
