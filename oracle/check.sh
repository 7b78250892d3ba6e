#!/bin/bash
# Checks the built oracle: what was compiled is the original, byte for byte, and the scope document's worked examples give what is
# recorded of them. SYMCC_SRC is as for build.sh.
set -euo pipefail
here=$(dirname "$(readlink -f "$0")")
originals=$(readlink -m "${SYMCC_SRC:-$here/../../shared/docs/src/src}")
cd "$here"

compiled=$(ls -td target/release/build/symcc_orig-*/out | head -1)
files=0
while IFS= read -r file; do
    size=$(stat -c %s "$originals/$file")
    extra=$(($(stat -c %s "$compiled/$file") - size))
    # Only compiler.rs has text after the original's, for which symcc_orig/build.rs gives the reason.
    if ! cmp -s -n "$size" "$originals/$file" "$compiled/$file" || { [ "$extra" != 0 ] && [ "$file" != symcc/compiler.rs ]; }; then
        echo "oracle: $file is not the original"
        exit 1
    fi
    files=$((files + 1))
done < <(cd "$compiled" && find . -name '*.rs' ! -name tree.rs | sed 's|^\./||' | sort)
[ "$files" = 20 ] || {
    echo "oracle: $files original files are compiled, and not 20"
    exit 1
}
answers=$(grep -v '^;' examples.txt | target/release/oracle)
diff -u examples.expected - <<<"$answers" || {
    echo "oracle: the worked examples give other answers"
    exit 1
}
echo "oracle: $files files as in the original, $(wc -l <<<"$answers") answers as recorded"
