#!/bin/sh
# Builds the daemon: tools/fuse/build.sh [FOLDER [LIBRARY]]. FOLDER gets undofs-fuse; without it, tools/fuse/out does.
# With LIBRARY, or UNDOFS_LIBRARY in the environment, the daemon has the file system in itself: it is the folder that
# tools/c/in_process/build.sh filled. With neither a child `uffs serve` has it.
# CFLAGS are added, as -fsanitize=address. Debian's gcc, pkg-config and libfuse3-dev are wanted (install.sh).
set -e
here=$(cd "$(dirname "$0")" && pwd)
folder=${1:-$here/out}
library=${2:-$UNDOFS_LIBRARY}
c=$here/../c
handle=$c/undofs_client.c
proved=
if [ -n "$library" ]; then
    handle="$c/in_process/service.c $c/in_process/in_process.c $c/in_process/shown_pages.c $c/in_process/turns_context.c"
    proved="-Wl,--gc-sections $library/libundofs_in_process.a $library/libheap.a -lm -lpthread"
fi
mkdir -p "$folder"
flags="-std=c11 -Wall -Wextra -Werror -pedantic -Wconversion -Wsign-conversion -Wshadow -Wstrict-prototypes -Wmissing-prototypes -O2 -g"
# shellcheck disable=SC2046,SC2086
${CC:-gcc} $flags $CFLAGS $(pkg-config --cflags fuse3) "$here"/*.c $handle "$c/undofs_calls.c" "$c/flat_file.c" "$c/raw_nand.c" \
    $proved $(pkg-config --libs fuse3) -o "$folder/undofs-fuse"
