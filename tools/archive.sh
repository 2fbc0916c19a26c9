#!/bin/sh
# Proves what has changed, and builds the archive for callers in C and Rust: target/staticlib/liblihumbay.a, for x86-64. rt names an archive after its crate,
# which is `lihumbay_c`, and leaves it in the crate's out/; callers link liblihumbay.a.
set -eu
cd "$(dirname "$0")/.."
(cd crates/lihumbay_c && rt lib)
mkdir -p target/staticlib
built=crates/lihumbay_c/out/liblihumbay_c.a
archive=target/staticlib/liblihumbay.a
cmp -s "$built" "$archive" || cp "$built" "$archive"
