#!/usr/bin/env bash
# Builds the archive from the current sources and the example over it with gcc, runs it, and holds what it prints to expected.txt.
set -euo pipefail
cd "$(dirname "$0")/../.."
bash tools/archive.sh
mkdir -p target/c
gcc -std=c11 -O2 -Wall -Wextra -Wconversion -Wpedantic -Werror -Iinclude -o target/c/line examples/c/line.c target/staticlib/libcabi.a
target/c/line > target/c/line.txt
diff -u examples/c/expected.txt target/c/line.txt
echo "examples/c: line printed what it must"
