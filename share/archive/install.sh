#!/bin/sh
# Installs what this archive holds: ./install.sh [PREFIX], /usr/local if none is given.
set -eu
here=$(cd "$(dirname "$0")" && pwd)
prefix=${1:-/usr/local}
mkdir -p "$prefix"
cp -R "$here/bin" "$here/share" "$prefix/"
echo "Installed. If your shell doesn't find ctxbound: export PATH=\"$prefix/bin:\$PATH\""
