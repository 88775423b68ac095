#!/bin/sh
# Prints what tools/vm wants and the host has not: programs, and the kernel that install.sh unpacks. The status is 0 where nothing is missing.
here=$(cd "$(dirname "$0")" && pwd)
PATH=$PATH:/usr/sbin:/sbin
missing=""
for name in qemu-system-x86_64 busybox cpio depmod modprobe nanddump ubiformat flock fusermount3 git sqlite3 pkg-config gcc python3; do
    command -v "$name" >/dev/null || missing="$missing $name"
done
pkg-config --exists fuse3 || missing="$missing libfuse3-dev"
ls "$here"/out/kernel/boot/vmlinuz-* >/dev/null 2>&1 || missing="$missing out/kernel"
[ -z "$missing" ] || echo "missing (tools/vm/install.sh):$missing"
[ -z "$missing" ]
