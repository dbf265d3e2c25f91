#!/bin/sh
# Tests the library that tools/make_library.sh made, as programs link it:
#
#     tools/test_library.sh [FOLDER]
#
# harness/c/library.c is built by the flags of pkg-config and run on the pair rig, with the
# shared library and with the static one; both print what harness/c/library.expected has. The
# words of the refusals are those of docs/FILE-FORMAT.md, the shared library shows the calls
# of the header and nothing else, and every package has the version of the header.
set -eu
root=$(cd "$(dirname "$0")/.." && pwd)
folder=$(cd "${1:-$root/target}" && pwd)
work=$(mktemp -d)
trap 'rm -rf "$work"' EXIT
export PKG_CONFIG_PATH="$folder/lib/pkgconfig"
export LD_LIBRARY_PATH="$folder/lib"
same() {
    diff -u "$1" "$2" || { echo "$3" && exit 1; }
}

version=$("$root/tools/version.sh")
states() {
    if [ "$2" != "$version" ]; then
        echo "$1 has version $2, and the header $version" && exit 1
    fi
}
states metzurgo.pc "$(pkg-config --modversion metzurgo)"
crate=bindings/rust/Cargo.toml
states "$crate" "$(sed -n 's/^version = "\(.*\)"$/\1/p' "$root/$crate")"
package=bindings/python/metzurgo/__init__.py
states "$package" "$(sed -n 's/^__version__ = "\(.*\)"$/\1/p' "$root/$package")"

flags='-std=c99 -Wall -Wextra -Wpedantic -Werror'
# The flags of pkg-config are several words.
# shellcheck disable=SC2046,SC2086
{
    cc $flags -o "$work/shared" "$root/harness/c/library.c" $(pkg-config --cflags --libs metzurgo)
    cc $flags -o "$work/static" "$root/harness/c/library.c" $(pkg-config --cflags metzurgo) \
        "$folder/lib/libmetzurgo.a"
    c++ -Wall -Wextra -Werror -fsyntax-only -x c++ "$folder/include/metzurgo.h"
}
for program in shared static; do
    "$work/$program" "$root/crates/routes/stdin" >"$work/out"
    same "$root/harness/c/library.expected" "$work/out" "the $program library answers otherwise"
    if "$work/$program" /dev/null >"$work/out" 2>"$work/err"; then
        echo "the $program library accepts an empty file" && exit 1
    fi
    grep -q '^library: The file ends too early' "$work/err"
done

"$work/shared" refusals >"$work/words"
sed -n 's/^| \([0-9]*\) | \([^|]*[^| ]\) | `refused-.*/\1 \2/p' "$root/docs/FILE-FORMAT.md" >"$work/page"
same "$work/page" "$work/words" "the header has other words than docs/FILE-FORMAT.md"

nm -D --defined-only "$folder/lib/libmetzurgo.so" | sed 's/.* //' | sort >"$work/shown"
sed -n 's/^uint64_t \(metzurgo_[a-z0-9_]*\)(.*/\1/p' "$folder/include/metzurgo.h" | sort >"$work/declared"
same "$work/declared" "$work/shown" "the shared library shows other calls than the header declares"
echo "library: $(wc -l <"$work/shown") calls, shared and static, version $version"
