#!/bin/sh
# Installs what tools/fuse/build.sh and test.sh use, on Debian, for the superuser.
set -e
apt-get update -q
apt-get install -y -q --no-install-recommends fuse3 libfuse3-dev linux-libc-dev gcc libc6-dev pkg-config make git sqlite3 rsync perl python3 diffutils tar vim-tiny
[ -c /dev/fuse ] || echo "install.sh: there is no /dev/fuse: the folder cannot be mounted here" >&2
