#!/usr/bin/env bash
# Installs the library, its header and a pkg-config file under a folder: ./install.sh PREFIX
set -euo pipefail
here=$(cd "$(dirname "$0")" && pwd)

if [ $# -ne 1 ]; then
    echo "usage: install.sh PREFIX" >&2
    exit 2
fi
source "$here/archive.sh"

mkdir -p "$1/lib/pkgconfig" "$1/include"
prefix=$(cd "$1" && pwd)
install -m 644 "$CHAMROLAK_ARCHIVE" "$prefix/lib/libchamrolak.a"
install -m 644 "$here/include/chamrolak.h" "$prefix/include/chamrolak.h"
cat > "$prefix/lib/pkgconfig/chamrolak.pc" <<END
prefix=$prefix
Name: chamrolak
Description: A proved, table-driven LR(1) parser driver with error recovery
Version: 0.1.0
Cflags: -I\${prefix}/include
Libs: -L\${prefix}/lib -lchamrolak
END
echo "Installed under $prefix: cc \$(pkg-config --cflags chamrolak) host.c \$(pkg-config --libs chamrolak)"
