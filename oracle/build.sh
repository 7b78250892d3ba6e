#!/bin/bash
# Builds the oracle from the original files, and checks it: ./check.sh.
# SYMCC_SRC names the folder of the originals, which holds err.rs and symcc/. By default it stands beside the project.
# Exit status 77: the originals, cargo or a package is missing, so there is nothing to build.
set -euo pipefail
here=$(dirname "$(readlink -f "$0")")
SYMCC_SRC=$(readlink -m "${SYMCC_SRC:-$here/../../shared/docs/src/src}")
export SYMCC_SRC
cd "$here"

missing() {
    echo "oracle: $1" >&2
    exit 77
}
[ -f "$SYMCC_SRC/err.rs" ] && [ -d "$SYMCC_SRC/symcc" ] || missing "the original files are not in $SYMCC_SRC (SYMCC_SRC names their folder)"
command -v cargo >/dev/null || missing "there is no cargo"
../tools/install.sh librust-num-bigint-dev librust-num-traits-dev librust-thiserror-dev librust-ref-cast-dev 2>/dev/null ||
    missing "the Debian packages librust-{num-bigint,num-traits,thiserror,ref-cast}-dev are missing"

# The originals name BigUint::ZERO and BigInt::ZERO, which num-bigint has from 0.4.5 on and Debian's 0.4.3 lacks.
# So it is built from a copy of Debian's source with these two constants after it.
if [ ! -d patched/num-bigint ]; then
    rm -rf patched
    mkdir patched
    cp -r "$(printf '%s\n' /usr/share/cargo/registry/num-bigint-0.4.* | sort -V | tail -1)" patched/copy
    rm -f patched/copy/.cargo-checksum.json
    if ! grep -q 'const ZERO' patched/copy/src/biguint.rs; then
        printf '\nimpl BigUint {\n    pub const ZERO: Self = BigUint { data: Vec::new() };\n}\n' >>patched/copy/src/biguint.rs
        printf '\nimpl BigInt {\n    pub const ZERO: Self = BigInt { sign: Sign::NoSign, data: BigUint::ZERO };\n}\n' >>patched/copy/src/bigint.rs
    fi
    mv patched/copy patched/num-bigint
fi
cargo build --release --offline "$@" >build.log 2>&1 || {
    cat build.log
    exit 1
}
./check.sh
