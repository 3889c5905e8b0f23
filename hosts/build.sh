#!/usr/bin/env bash
# Writes target/libmonitor.a, which has every call, and archives of some calls, target/staticlib/libNAME.a: the compiler's, the
# runner's (begin, step, run and decide) and the joiner's.
set -euo pipefail
cd "$(dirname "${BASH_SOURCE[0]}")/.."

# Each is built from the static library crates/NAME_c.
names=(compiler runner joiner)

rm -f target/libmonitor.a
rm -rf target/staticlib
mkdir -p target/staticlib

# `rt lib` proves a static library and all that it rests on, where that isn't proved yet.
for name in "${names[@]}"; do
    (cd "crates/${name}_c" && rt lib)
    cp "crates/${name}_c/out/lib${name}_c.a" "target/staticlib/lib$name.a"
done

# All of them in one archive.
{
    echo 'create target/libmonitor.a'
    printf 'addlib target/staticlib/lib%s.a\n' "${names[@]}"
    echo 'save'
} | ar -M
echo "target/libmonitor.a has every call"
