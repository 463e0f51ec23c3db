#!/bin/sh
# Counts executed instructions of the library and of the plain implementation
# on an x86-64 machine, both in one program, by valgrind's callgrind.
#
#   tools/bench-counted.sh
#
# Run it at the repository's root after `tools/staticlib.sh`. It needs
# valgrind and cargo. The counts are the same each time.
set -eu

cargo build --release --offline --quiet --manifest-path rust/Cargo.toml --bin bench
counts=$(mktemp -d)
trap 'rm -rf "$counts"' EXIT
valgrind --quiet --tool=callgrind --callgrind-out-file="$counts/dump" \
    rust/target/release/bench --callgrind "$counts/dump"
