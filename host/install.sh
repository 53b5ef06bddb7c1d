#!/usr/bin/env bash
# Installs the archive, its headers and a file for pkg-config under PREFIX (/usr/local), which stands under DESTDIR
# (nothing) while it is put together: PREFIX=/opt/space DESTDIR=/tmp/package host/install.sh
set -euo pipefail
cd "$(dirname "$0")/.."
. host/build.sh
prefix=${PREFIX:-/usr/local}
case $prefix in
    /*) ;;
    *) echo "PREFIX must be absolute: $prefix" >&2; exit 2 ;;
esac
find_archive
version=$(sed -n 's/^#define SPACE_VERSION //p' host/space.h)
to=${DESTDIR:-}$prefix
install -d "$to/include" "$to/lib/pkgconfig"
install -m 644 host/space.h host/space_frames.h "$to/include"
install -m 644 "$archive" "$to/lib/libspace.a"
sed "s|@PREFIX@|$prefix|; s|@VERSION@|$version|" host/space.pc.in > "$to/lib/pkgconfig/space.pc"
chmod 644 "$to/lib/pkgconfig/space.pc"
echo "installed: $to/include/space.h, space_frames.h, $to/lib/libspace.a, $to/lib/pkgconfig/space.pc"
