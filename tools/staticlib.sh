#!/bin/sh
# The library for other languages, proved and built: target/staticlib/libfolvkin.a, which include/folvkin.h declares.
set -e
here=$(cd "$(dirname "$0")/.." && pwd -P)
(cd "$here/crates/folvkin_c" && rt lib) >&2
mkdir -p "$here/target/staticlib"
cp "$here/crates/folvkin_c/out/libfolvkin_c.a" "$here/target/staticlib/libfolvkin.a"
