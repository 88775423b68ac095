#!/bin/sh
# Builds the C library and the program demo.c over it, and runs it: tools/c/build.sh [FOLDER].
# The library is proved first. FOLDER gets libundofs_c.a and demo; without it, crates/undofs_c/out does.
set -e
top=$(cd "$(dirname "$0")/../.." && pwd)
made=$top/crates/undofs_c/out
folder=${1:-$made}
heap=$(dirname "$(readlink -f "$(command -v rt)")")/../c/liblibc_c.a
echo "proving the library: this takes minutes where it was not proved here before"
(cd "$top/crates/undofs_c" && rt lib)
echo "building the program"
[ "$folder" = "$made" ] || cp "$made/libundofs_c.a" "$folder/"
${CC:-gcc} -std=c99 -Wall -Wextra -O2 -I "$top/tools/c" "$top/tools/c/demo.c" "$folder/libundofs_c.a" "$heap" -o "$folder/demo"
"$folder/demo"
