#!/bin/sh
# Runs a script on a file system in memory, with no proof: ./run.sh [FILE].
# Without a file: a directory is made, undo takes it back, and redo brings it again.
set -e
top=$(cd "$(dirname "$0")" && pwd)
script=${1:-$top/crates/memory_script/stdin}
script=$(cd "$(dirname "$script")" && pwd)/$(basename "$script")
cd "$top/crates/memory_script"
echo "run.sh: compiling the file system, some two minutes of processor time; nothing is proved" >&2
rt try < "$script"
