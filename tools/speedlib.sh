#!/usr/bin/env bash
# Proves and builds the static library by which `compare speed` reads, and writes target/staticlib/libspeed.a. It is built
# in a copy outside the repository, whose gate takes no crate that only a comparison needs.
set -euo pipefail
cd "$(dirname "$0")/.."
copy=$(mktemp -d)
trap 'rm -rf "$copy"' EXIT
git ls-files -z crates crates.txt | xargs -0 cp --parents -t "$copy"
mkdir -p "$copy/crates/speed/src"
cp compare/speed/lib.rt.txt "$copy/crates/speed/src/lib.rt"
echo 'speed staticlib: finder finders pieces reader stream syntax' >> "$copy/crates.txt"
(cd "$copy/crates/speed" && rt lib)
mkdir -p target/staticlib
cp "$copy/crates/speed/out/libspeed.a" target/staticlib/libspeed.a
echo target/staticlib/libspeed.a
