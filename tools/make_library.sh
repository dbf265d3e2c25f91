#!/bin/sh
# Makes the library as programs link it, from the archive that tools/build.sh writes:
#
#     tools/make_library.sh [FOLDER]
#
# FOLDER (target, where it is left out) gets lib/libmetzurgo.a, lib/libmetzurgo.so,
# lib/pkgconfig/metzurgo.pc and include/metzurgo.h. METZURGO_LIB_DIR names the folder of
# libexports.a where it is not target/staticlib. The folder may be moved afterwards.
set -eu
root=$(cd "$(dirname "$0")/.." && pwd)
archive=${METZURGO_LIB_DIR:-$root/target/staticlib}/libexports.a
folder=${1:-$root/target}
version=$("$root/tools/version.sh")
if [ ! -e "$archive" ]; then
    echo "$archive is missing: tools/build.sh makes it" >&2
    exit 1
fi
mkdir -p "$folder/lib/pkgconfig" "$folder/include"
cp "$root/include/metzurgo.h" "$folder/include/"
cp "$archive" "$folder/lib/libmetzurgo.a"

# The shared library shows the calls alone.
shared=libmetzurgo.so.$version
name=libmetzurgo.so.${version%%.*}
symbols=$(mktemp)
trap 'rm -f "$symbols"' EXIT
echo '{ global: metzurgo_*; local: *; };' >"$symbols"
${CC:-cc} -shared -Wl,-soname,"$name" -Wl,--version-script="$symbols" -Wl,-z,defs \
    -o "$folder/lib/$shared" -Wl,--whole-archive "$archive" -Wl,--no-whole-archive
ln -sf "$shared" "$folder/lib/$name"
ln -sf "$shared" "$folder/lib/libmetzurgo.so"

cat >"$folder/lib/pkgconfig/metzurgo.pc" <<EOF
prefix=\${pcfiledir}/../..
libdir=\${prefix}/lib
includedir=\${prefix}/include

Name: metzurgo
Description: SAS domain files, route tables and request tracing
Version: $version
Libs: -L\${libdir} -lmetzurgo
Cflags: -I\${includedir}
EOF
