#!/bin/sh
# Builds what C and Rust link: target/libfunctions.a and target/librecord.a.
set -eu
cd "$(dirname "$0")/.."
mkdir -p target
for name in functions record; do
    (cd "crates/${name}_c" && rt lib)
    cp "crates/${name}_c/out/lib${name}_c.a" "target/lib$name.a"
done
