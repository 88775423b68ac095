#!/bin/bash
# Builds the daemon and tries it on real programs, kills and cuts: tools/fuse/test.sh [PROGRAM [NAME..]]
# PROGRAM is the `uffs` of crates/uffs/out, as `rt run` builds it there, or another one. What it needs is installed by install.sh.
# A NAME is that of a case (tests/try_folder.py). JOBS are run at once, four where it is not set. With SANITIZE=1 the daemon has the
# address and undefined sanitizers. With UNDOFS_LIBRARY (build.sh) it has the file system in itself, and what is of a child
# alone is left out. The last line counts; the status is 0 where none failed, and 77 where the host has no /dev/fuse, and
# nothing was tried.
program=$(realpath "${1:-$(dirname "$0")/../../crates/uffs/out/uffs}") || exit 2
cd "$(dirname "$0")" || exit 2
shift
if ! [ -c /dev/fuse ]; then
    echo "test.sh: there is no /dev/fuse here: nothing was tried" >&2
    exit 77
fi
# A program that begins a mount namespace of its own while a folder is mounted keeps the folder until that ends, and its daemon. So the
# superuser's run has a namespace that no other program takes a copy of; those that are begun in it see what is unmounted.
if [ "$(id -u)" = 0 ] && [ "$HAS_NAMESPACE" != 1 ]; then
    export HAS_NAMESPACE=1
    exec unshare -m --propagation private sh -c 'mount --make-rshared / && exec "$@"' sh "./$(basename "$0")" "$program" "$@"
fi
if [ "$SANITIZE" = 1 ]; then
    export CFLAGS="$CFLAGS -fsanitize=address,undefined -fno-sanitize-recover"
    export ASAN_OPTIONS=verify_asan_link_order=0:detect_stack_use_after_return=0 # the shims come first; the library has a stack of its own
fi
made=$(mktemp -d)
trap 'rm -rf "$made"' EXIT
./build.sh "$made" || exit 2
for shim in file_shim mtd_shim; do
    gcc -std=c11 -Wall -Wextra -Werror -O2 -fPIC -shared tests/$shim.c -o "$made/$shim.so" -ldl || exit 2
done
PYTHONDONTWRITEBYTECODE=1 python3 tests/try_folder.py "$made/undofs-fuse" "$program" "$made" "$@"
