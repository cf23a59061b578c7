#!/usr/bin/env bash
# Proves the exports and builds the archive for C from the current sources: target/staticlib/libcabi.a, where all that links it looks for it.
# It is for every x86-64 processor; the kit's default is x86-64-v2, and an archive does not look for what it lacks.
set -euo pipefail
cd "$(dirname "$0")/.."
(cd crates/cabi_c && rt lib --cpu x86-64)
mkdir -p target/staticlib
cp crates/cabi_c/out/libcabi_c.a target/staticlib/libcabi.a
