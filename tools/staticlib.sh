#!/usr/bin/env bash
# Proves and builds the static library for C and Rust, and writes target/staticlib/libboundary.a.
set -euo pipefail
cd "$(dirname "$0")/.."
(cd crates/boundary_c && rt lib)
mkdir -p target/staticlib
cp crates/boundary_c/out/libboundary_c.a target/staticlib/libboundary.a
echo target/staticlib/libboundary.a
