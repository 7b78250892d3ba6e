#!/bin/bash
# Gives the linked library and the original the same instructions in one process, and compares what they answer (oracle/beside). The
# library is the archive that test.sh built. Ends with status 77 where the originals, cargo or a package is missing. `--build` compiles the
# original alone, for which no archive is needed.
set -euo pipefail
cd "$(dirname "$(readlink -f "$0")")/../.."
source tools/rust/quietly.sh beside
PATH=$PATH:$HOME/.cargo/bin

# the original's packages, and the copy of num-bigint that it is built with
status=0
oracle/build.sh >"$log" 2>&1 || status=$?
if [ $status = 77 ]; then
    echo "beside: not compared, $(sed 's/^oracle: //' "$log")"
    exit 77
fi
[ $status = 0 ] || {
    cat "$log"
    exit 1
}

source tools/rust/cross.sh beside
if [ "${1:-}" = --build ]; then
    cd oracle
    quietly cargo build --release --offline -p oracle
    exit
fi
[ -f "${TAMESWULK_LIB:-crates/tameswulk/out}/libtameswulk.a" ] || quietly env -C crates/tameswulk rt lib
cd oracle
quietly cargo test --release --offline -p beside --test beside -- --show-output
awk '/^counted/ { n[$2] += $3 }
    END {
        printf "beside: %d instructions give the original'\''s term, %d the refusal of document 01; ", n["built"], n["refused"]
        printf "of %d changed arenas %d are refused; %d cells compared after refusals\n", n["damaged"] + n["sound"], n["damaged"], n["cells"]
    }' "$log"
