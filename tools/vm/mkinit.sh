#!/bin/bash
# Makes what the machine has in memory when it starts: tools/vm/mkinit.sh FOLDER
# FOLDER has `trials`, `bin` with programs, and may have `wrong` (init). It gets `root` and, of it, `initrd`: busybox and other programs of
# the host, modules of out/kernel, and what stands here.
set -e
here=$(cd "$(dirname "$0")" && pwd)
root=$1/root
kernel=$here/out/kernel version=$(ls "$here/out/kernel/lib/modules")
modules="nandsim mtdram fuse mtdblock ubifs jffs2 lzo deflate zstd"
programs="nanddump flash_erase ubiformat ubiattach ubidetach ubimkvol bash flock realpath fusermount3 git sqlite3"

rm -rf "$root"
mkdir -p "$root"/{bin,sbin,proc,sys,dev,tmp,run,mnt,etc,wrong,scripts}
cp /bin/busybox "$root/bin/"
for name in $(/bin/busybox --list); do [ -e "$root/bin/$name" ] || ln -s busybox "$root/bin/$name"; done
ln -s ../bin/busybox "$root/sbin/modprobe" # the kernel asks for it by this name

for module in $modules; do modprobe -d "$kernel" -S "$version" --show-depends "$module"; done | awk '/^insmod/ {print $2}' | sort -u |
    while read -r file; do install -Dm644 "$file" "$root/lib/modules${file#"$kernel/lib/modules"}"; done
cp "$kernel/lib/modules/$version"/modules.{order,builtin,builtin.modinfo} "$root/lib/modules/$version/"
depmod -b "$root" "$version"

for name in $programs; do
    rm -f "$root/bin/$name"
    cp -L "$(PATH=$PATH:/usr/sbin:/sbin command -v "$name")" "$root/bin/"
done
cp "$1"/bin/* "$root/bin/"
for file in "$root"/bin/*; do
    [ -L "$file" ] || ldd "$file" 2>/dev/null | awk '/=> \// {print $3} /^\t\// {print $1}'
done | sort -u | while read -r library; do install -D "$library" "$root$library"; done

cp "$here/init" "$here/run_trial" "$here/checks" "$1/trials" "$root/"
cp "$here"/cases/* "$here/measured" "$root/scripts/"
[ ! -d "$1/wrong" ] || cp -r "$1/wrong/." "$root/wrong/"
(cd "$root" && find . | cpio -o -H newc --quiet) >"$1/initrd"
