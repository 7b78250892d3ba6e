#!/bin/bash
# Installs those of the named Debian packages that are not there yet, in silence.
# Where it cannot, it fails with one line that names them.
set -euo pipefail
missing=()
for package in "$@"; do
    state=$(dpkg-query -W -f '${db:Status-Status}' "$package" 2>/dev/null || true)
    [ "$state" = installed ] || missing+=("$package")
done
[ ${#missing[@]} -gt 0 ] || exit 0
export DEBIAN_FRONTEND=noninteractive
# Short limits, so that a machine without a network says so soon.
limits=(-o Acquire::Retries=0 -o Acquire::http::Timeout=20 -o Acquire::https::Timeout=20)
{
    timeout 120 apt-get "${limits[@]}" update -qq &&
        timeout 300 apt-get "${limits[@]}" install -y -qq --no-install-recommends "${missing[@]}"
} </dev/null >/dev/null 2>&1 || {
    echo "cannot install the Debian packages: ${missing[*]}" >&2
    exit 1
}
