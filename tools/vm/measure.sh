#!/bin/bash
# Measures the folder beside UBIFS and JFFS2 under Debian's kernel in QEMU, over a simulated NAND with its delays:
# tools/vm/measure.sh [PROGRAM [ROUNDS]]
# PROGRAM is the `uffs` of crates/uffs/out, or another one. Prints a table of seconds, the median of so many ROUNDS (3) each, and how many
# times those of UBIFS the folder takes, and then the load of the host. LIMIT=N gives all N seconds (3600). The status is 77 where QEMU, a
# program or the kernel is missing.
program=$(realpath "${1:-$(dirname "$0")/../../crates/uffs/out/uffs}") || exit 2
cd "$(dirname "$0")" || exit 2
if ! ./missing.sh >&2; then exit 77; fi
limit=${LIMIT:-3600}
made=$(mktemp -d)
trap 'rm -rf "$made"' EXIT
mkdir "$made/bin" && ../fuse/build.sh "$made/bin" || exit 2
cp ../fuse/undofs-umount "$made/bin/" && cp "$program" "$made/bin/uffs" || exit 2
echo "measured - $limit ${2:-3}" >"$made/trials"
./mkinit.sh "$made" || exit 2
before=$(cut -d' ' -f1-3 /proc/loadavg)
./vm.sh "$made" $((limit + 60)) >"$made/log"
grep -v '^measured' "$made/log" >&2
python3 table_of_measures.py <"$made/log"
echo "load of the host before: $before, after: $(cut -d' ' -f1-3 /proc/loadavg); $(nproc) processors, QEMU without KVM"
grep -q '^trial measured - 0 ' "$made/log"
