#!/bin/sh
# Prices the calls and writes the tables: prices.sh [FILE], by default ../docs/PRICES.md seen from here.
# The archive is the one in the directory that YD_ARCHIVE_DIR names, as for the race.
set -eu
here=$(cd "$(dirname "$0")" && pwd)
file=${1:-$here/../docs/PRICES.md}
# The tables are made whole before the file is touched, so that a failure leaves the old ones.
made=$(mktemp)
trap 'rm -f "$made"' EXIT
bench() { cargo run --quiet -j1 --release --manifest-path "$here/Cargo.toml" -p bench -- "$@"; }
version() { "$@" 2>/dev/null | head -n 1 | grep . || echo "not known"; }
{
    echo "# Prices"
    echo
    echo "Written by \`compare/prices.sh\` on $(date -u +%F)."
    echo "Kit: $(version rt version). Compiler of the reference: $(version rustc --version). Counter: $(version valgrind --version)."
    echo
} >"$made"
bench table >>"$made"
mkdir -p "$(dirname "$file")"
cat "$made" >"$file"
