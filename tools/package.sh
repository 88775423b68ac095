#!/bin/sh
# Makes a Debian package of what the gate built: tools/package.sh FOLDER [PROGRAM]
# FOLDER gets undofs_VERSION_ARCHITECTURE.deb, with `uffs`, its page and completion, the folder's daemon with its
# unmount, and the client in Python. PROGRAM is the `uffs` of crates/uffs/out, or another one. dpkg-deb, and what
# tools/fuse/install.sh brings, are wanted.
set -e
[ -n "$1" ] || { echo "package.sh: a folder is wanted" >&2; exit 2; }
mkdir -p "$1"
folder=$(realpath "$1")
here=$(cd "$(dirname "$0")" && pwd)
top=$(dirname "$here")
program=$(realpath "${2:-$top/crates/uffs/out/uffs}")
version=$(sed -nE 's/^pub const VERSION: &str = "([^"]+)";$/\1/p' "$top/crates/command_words/src/grammar.rt")
architecture=$(dpkg --print-architecture)
made=$(mktemp -d)
trap 'rm -rf "$made"' EXIT

install -Dt "$made/usr/bin" "$program" "$here/fuse/undofs-umount"
"$here/fuse/build.sh" "$made/built"
install -Dst "$made/usr/bin" "$made/built/undofs-fuse"
rm -r "$made/built"
install -Dm644 "$top/docs/uffs.1" "$made/usr/share/man/man1/uffs.1"
gzip -9n "$made/usr/share/man/man1/uffs.1"
install -Dm644 "$here/uffs.bash" "$made/usr/share/bash-completion/completions/uffs"
install -Dm644 "$here/python/undofs.py" "$made/usr/lib/python3/dist-packages/undofs.py"
install -Dm644 -t "$made/usr/share/doc/undofs" "$top/README.md" "$top/CHANGELOG.md" "$top/SECURITY.md"
if [ -f "$top/LICENSE" ]; then
    install -Dm644 "$top/LICENSE" "$made/usr/share/doc/undofs/copyright"
else
    echo "There is no licence: all rights are the owner's." > "$made/usr/share/doc/undofs/copyright"
fi

mkdir "$made/DEBIAN"
cat > "$made/DEBIAN/control" << END
Package: undofs
Version: $version
Architecture: $architecture
Maintainer: the owner of undofs <root@localhost>
Depends: libc6, fuse3
Recommends: python3
Section: admin
Priority: optional
Description: file system for raw flash that takes changes back
 Each accepted change is one version, which undo takes back; what was synced
 outlives a loss of power. The file system is proved. The daemon that shows it
 as a folder is tested and not proved.
END
dpkg-deb --root-owner-group --build "$made" "$folder/undofs_${version}_$architecture.deb"
