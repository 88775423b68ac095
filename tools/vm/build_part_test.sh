#!/bin/sh
# Builds the test of the driver by itself: build_part_test.sh TOOLS FOLDER. FOLDER gets `part_test`, of the sources below TOOLS.
set -e
here=$(cd "$(dirname "$0")" && pwd)
flags="-std=c11 -Wall -Wextra -Werror -pedantic -Wconversion -Wsign-conversion -Wshadow -Wstrict-prototypes -Wmissing-prototypes -O2 -g"
mkdir -p "$1/vm"
[ -e "$1/vm/part_test.c" ] || cp "$here/part_test.c" "$1/vm/"
# shellcheck disable=SC2086
${CC:-gcc} $flags $CFLAGS "$1/vm/part_test.c" "$1/fuse/mtd_part.c" "$1/c/raw_nand.c" -o "$2/part_test"
