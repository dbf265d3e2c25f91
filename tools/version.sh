#!/bin/sh
# Prints the version, MAJOR.MINOR.PATCH, which include/metzurgo.h states.
set -eu
header=$(dirname "$0")/../include/metzurgo.h
version=$(sed -n 's/^#define METZURGO_VERSION_\(MAJOR\|MINOR\|PATCH\) \([0-9]*\)$/\2/p' "$header" | paste -sd .)
case $version in
*.*.*) echo "$version" ;;
*) echo "$header: no version" >&2 && exit 1 ;;
esac
