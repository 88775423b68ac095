#!/bin/bash
# Boots Debian's kernel in QEMU and tries the driver for MTD and the folder on the flash that it simulates, and wrong ones:
# tools/vm/test.sh [PROGRAM [NAME..]]
# PROGRAM is the `uffs` of crates/uffs/out, as `rt run` builds it there, or another one. A NAME is that of a file of cases/, or of wrong/
# without `.edit`; without one all are run. LIMIT=N gives each case N seconds (900), and KILLS=N each case of kills so many (30). The
# last line counts. The status is 0 where none failed, 1 where one did, 2 where nothing could be built, and 77 where QEMU, a program or
# the kernel is missing, and nothing was tried.
program=$(realpath "${1:-$(dirname "$0")/../../crates/uffs/out/uffs}") || exit 2
cd "$(dirname "$0")" || exit 2
shift
if ! ./missing.sh >&2; then exit 77; fi
limit=${LIMIT:-900}
made=$(mktemp -d)
trap 'rm -rf "$made"' EXIT
mkdir "$made/bin" && ./build_part_test.sh .. "$made/bin" && ../fuse/build.sh "$made/bin" || exit 2
cp ../fuse/undofs-umount "$made/bin/" && cp "$program" "$made/bin/uffs" || exit 2
names=("$@")
[ $# -gt 0 ] || mapfile -t names < <(cd cases && printf '%s\n' *; cd ../wrong && printf '%s\n' *.edit | sed 's/\.edit$//')
for name in "${names[@]}"; do
    if [ -e "cases/$name" ]; then
        echo "$name - $limit ${KILLS:-30}"
    else
        mkdir -p "$made/wrong/$name"
        case=$(./build_wrong.py "$name" "$made/wrong/$name") || exit 2
        echo "$case $name $limit ${KILLS:-30}"
    fi
done >"$made/trials" || exit 2
./mkinit.sh "$made" || exit 2

# Tells each trial on one line, of which a line `trial CASE WRONG STATUS SECONDS` ends each. A wrong one that only comes to no end is not seen.
tell() {
    local told="" line first name wrong status seconds
    while read -r line; do
        read -r first name wrong status seconds <<<"$line"
        if [ "$first" != trial ]; then
            [[ -n $told && $line == wrong* ]] || told+="${told:+ }$line"
            continue
        fi
        if [ "$status" = "$([ "$wrong" = - ] && echo 0 || echo 1)" ]; then line="ok   "; else line=WRONG; fi
        if [ "$wrong" = - ]; then line+=" $name"; else line+=" a wrong one is seen: $wrong"; fi
        echo "$line $seconds s ${told:0:500}"
        told=""
    done
}
./vm.sh "$made" $((limit * ${#names[@]} + 300)) | tee "$made/log" | tell
passed=$(awk '$1 == "trial" && $4 == ($3 != "-")' "$made/log" | wc -l)
[ "$(grep -c '^trial ' "$made/log")" = ${#names[@]} ] || echo "the machine ended early: $(tail -n 3 "$made/log")"
echo "$passed passed, $((${#names[@]} - passed)) failed"
[ "$passed" = ${#names[@]} ]
