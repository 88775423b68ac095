#!/bin/sh
# Installs what tools/vm uses, on Debian, for the superuser. The kernel is unpacked to tools/vm/out/kernel and not installed.
set -e
here=$(cd "$(dirname "$0")" && pwd)
apt-get update -q
apt-get install -y -q --no-install-recommends qemu-system-x86 busybox-static mtd-utils cpio kmod fuse3 git sqlite3 libfuse3-dev pkg-config \
    gcc libc6-dev linux-libc-dev python3
package=$(apt-cache depends linux-image-amd64 | awk '/Depends: linux-image/ {print $2; exit}') # by its name: a pattern fetches gigabytes
rm -rf "$here/out/kernel" "$here/out/package"
mkdir -p "$here/out/package"
(cd "$here/out/package" && apt-get download -q "$package")
dpkg-deb -x "$here"/out/package/*.deb "$here/out/kernel"
rm -rf "$here/out/package"
depmod -b "$here/out/kernel" "$(ls "$here/out/kernel/lib/modules")"
echo "install.sh: $package is in $here/out/kernel"
