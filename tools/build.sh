#!/bin/sh
# Proves and builds the archive libexports.a and the program routes with the toolchain, and copies them to where
# the other tools and the bindings look for them:
#
#     tools/build.sh
#
# writes target/staticlib/libexports.a and target/bin/routes. `rt` builds only what is proved.
set -eu
root=$(cd "$(dirname "$0")/.." && pwd)
mkdir -p "$root/target/staticlib" "$root/target/bin"
cd "$root/crates/exports"
rt lib
cp out/libexports.a "$root/target/staticlib/"
cd "$root/crates/routes"
rt run <stdin
cp out/routes "$root/target/bin/"
