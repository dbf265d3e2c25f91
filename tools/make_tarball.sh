#!/bin/sh
# Makes metzurgo-VERSION-x86_64.tar.gz for lab machines, with Python 3 and glibc and no
# toolchain, from what tools/build.sh built:
#
#     tools/make_tarball.sh [FOLDER]
#
# The tarball is written into FOLDER (target, where it is left out), and its path is printed. The
# same commit gives the same bytes. METZURGO_LIB_DIR is as for tools/make_library.sh.
set -eu
root=$(cd "$(dirname "$0")/.." && pwd)
out=$(cd "${1:-$root/target}" && pwd)
name=metzurgo-$("$root/tools/version.sh")-x86_64
routes=$root/target/bin/routes
if [ ! -e "$routes" ]; then
    echo "$routes is missing: tools/build.sh makes it" >&2
    exit 1
fi
work=$(mktemp -d)
trap 'rm -rf "$work"' EXIT
top=$work/$name
mkdir -p "$top/bin" "$top/share/man"

"$root/tools/make_library.sh" "$top"
cp "$routes" "$top/bin/"
cp -r "$root/samples" "$root/docs" "$root/CHANGES.md" "$top/"
# The README is that of the checkout, but for its use, which needs the toolchain there.
{
    sed '/^## Use$/,$d' "$root/README.md"
    cat <<'EOF'
## Use

`INSTALL` says what the command needs, and how it is installed. Rigs are written as texts
([docs/RIG-TEXT.md](docs/RIG-TEXT.md)). `samples/` has some that work, and at least one for every refusal
number. The command `metzurgo` ([docs/COMMAND.md](docs/COMMAND.md)) takes such texts, and asks the proved
library for every answer about a rig:

    $ bin/metzurgo trace samples/pair.rig top B1
    arrived at B1 by phy 1 of bottom, 2 expanders passed
    top     (iii) entry 0 of phy 0 has the address: on by phy 0 to phy 0 of bottom
    bottom  (ii) phy 1 has the address attached: arrived
    $ bin/metzurgo draw samples/comb.rig --trace B2 A0 -o comb.svg

![The comb rig, and a request from B2 to A0](docs/comb.svg)

The program `routes` lists the routing tables of a domain file, a line for each entry with expander, phy, index
and entry, then the totals:

    $ bin/metzurgo build samples/pair.rig | bin/routes
    0 0 0 50000000000000b1
    0 0 1 0000000000000000
    0 0 2 0000000000000000
    0 0 3 0000000000000000
    tables 1 entries 4

EOF
    sed -n '/^## Read$/,$p' "$root/README.md"
} >"$top/README.md"
# The package finds the library beside its own folder.
cp -r "$root/bindings/python/metzurgo" "$top/lib/"
find "$top/lib/metzurgo" -name __pycache__ -prune -exec rm -rf {} +
PYTHONPATH=$top/lib python3 -B -m metzurgo.manual "$top/share/man/man1"
cat >"$top/bin/metzurgo" <<'EOF'
#!/bin/sh
""":"
# Runs the command metzurgo from the folder in which it was unpacked: this file is a script of sh
# that starts Python on itself. Python does not start where standard input is a folder, so that is
# closed first, and the command says itself that it cannot be read.
if [ -d /dev/stdin ]; then exec <&-; fi
exec python3 "$0" "$@"
":"""

import os
import sys

TOP = os.path.dirname(os.path.dirname(os.path.realpath(__file__)))
sys.path.insert(0, os.path.join(TOP, "lib"))

from metzurgo.__main__ import main  # noqa: E402

sys.exit(main())
EOF
cat >"$top/INSTALL" <<EOF
$name runs in the folder in which it is unpacked, or in /usr/local after
    cp -r bin lib include share /usr/local && ldconfig
It needs Python 3.8 or later, and glibc 2.34 or later on x86-64.

    bin/metzurgo judge samples/comb.rig
    bin/metzurgo draw samples/comb.rig --trace B2 A0 -o comb.svg
    man -l share/man/man1/metzurgo.1

The program routes prints the routing tables of a domain file on its standard input. Programs in
C are linked by
    PKG_CONFIG_PATH=lib/pkgconfig pkg-config --cflags --libs metzurgo
docs/ROUTING.md and include/metzurgo.h describe the calls.
EOF
chmod -R u=rwX,go=rX "$top"
chmod 755 "$top/bin/metzurgo" "$top/bin/routes"
# Python takes a compiled module for that of a source with the same time.
time=${SOURCE_DATE_EPOCH:-$(git -C "$root" log -1 --format=%ct 2>/dev/null || date +%s)}
tar -C "$work" --sort=name --owner=0 --group=0 --numeric-owner --mtime="@$time" \
    -cf "$work/$name.tar" "$name"
gzip -9n "$work/$name.tar"
mv "$work/$name.tar.gz" "$out/"
echo "$out/$name.tar.gz"
