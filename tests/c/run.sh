#!/usr/bin/env bash
# Builds the archive from the current sources and the test of its calls with it, as C99 and as C++17, and runs both.
# Both must make the same checks, and the archive may import memcpy alone. The one line that is printed has their number.
set -euo pipefail
cd "$(dirname "$0")/../.."
bash tools/archive.sh > /dev/null
archive=target/staticlib/libcabi.a
imports=$(nm -u "$archive" | awk '$1 == "U" { print $2 }' | sort -u)
if [ "$imports" != memcpy ]; then
    echo "The archive must import memcpy alone, and it imports: $imports"
    exit 1
fi
warnings=(-Wall -Wextra -Wconversion -Wpedantic -Werror)
mkdir -p target/c
gcc -std=c99 -O2 "${warnings[@]}" -Iinclude -o target/c/calls-c99 tests/c/*.c "$archive"
g++ -x c++ -std=c++17 -O2 "${warnings[@]}" -Iinclude -o target/c/calls-c++17 tests/c/*.c -x none "$archive"
target/c/calls-c99 > target/c/calls-c99.txt || { cat target/c/calls-c99.txt; exit 1; }
target/c/calls-c++17 > target/c/calls-c++17.txt || { cat target/c/calls-c++17.txt; exit 1; }
diff -u target/c/calls-c99.txt target/c/calls-c++17.txt
cat target/c/calls-c99.txt
