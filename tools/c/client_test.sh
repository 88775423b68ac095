#!/bin/bash
# Builds the client with its drivers and runs each demo, under the address and undefined sanitizers:
#   tools/c/client_test.sh [PROGRAM]
# PROGRAM is the `uffs` of crates/uffs/out, as `rt run` builds it there, or another one. The last line counts.
program=$(realpath "${1:-$(dirname "$0")/../../crates/uffs/out/uffs}") || exit 2
cd "$(dirname "$0")" || exit 2
made=$(mktemp -d)
trap 'rm -rf "$made"' EXIT
passed=0 failed=0
flags="-std=c11 -Wall -Wextra -Werror -pedantic -Wconversion -Wsign-conversion -Wshadow -Wstrict-prototypes -Wmissing-prototypes"
client="undofs_client.c undofs_calls.c"

tell() {
    if [ "$2" = 0 ]; then
        passed=$((passed + 1))
        echo "ok    $1"
    else
        failed=$((failed + 1))
        echo "WRONG $1"
    fi
}

build() {
    # shellcheck disable=SC2086
    ${CC:-gcc} $flags -g -O1 -fsanitize=address,undefined -fno-sanitize-recover $client "$@" -o "$made/$name"
}

# Tries a demo: its name, its sources, and then the words it is run with. What it prints is wanted on standard input.
try() {
    name=$1 sources=$2
    shift 2
    # shellcheck disable=SC2086
    build $sources && "$made/$name" "$@" > "$made/found"
    tell "$name" $?
    diff - "$made/found"
    tell "$name prints what is wanted" $?
}

try demo_flat_file "flat_file.c demo_flat_file.c" "$program" "$made/part" << END
entries a name of 100 % name
entries
entries a name of 100 % name
100000 bytes, the same
norxxx
missing: 1
END

try demo_failures demo_failures.c "$program" << END
at the start: 0 files, no bad block
after failures: 4 files, some bad block
by a new child: 4 files, some bad block
END

try demo_raw_nand "raw_nand.c nand_in_memory.c demo_raw_nand.c" "$program" << END
raw NAND: 66 operations, 66 runs with a cut, 8 with failures, 0 wrong
END

try demo_spare_bits "raw_nand.c nand_in_memory.c demo_spare_bits.c" << END
spare bits: 22573 states of a page, 0 wrong
END

try demo_long_files demo_long_files.c "$program" << END
long files: some cuts 1, as many kills 1, 0 wrong
END

# What the driver of a part behind MTD tells of pages, over a shim of the kernel, with no file system.
name=mtd_part_test
mkdir "$made/mtd"
build -I. -w raw_nand.c ../fuse/mtd_part.c ../fuse/tests/mtd_shim.c ../fuse/tests/mtd_part_test.c && "$made/$name" "$made/mtd"
tell "a driver of a part behind MTD" $?

# Tells whether a demo sees what is wrong with one file: what that is, the file, an edit of it by sed, the name of the demo and its sources.
# An edit that changes nothing is seen by none.
see() {
    told=$1 file=$2 name=wrong
    sed "$3" "$file" > "$made/wrong.c"
    client="undofs_client.c undofs_calls.c"
    client=${client/$file/$made/wrong.c}
    # shellcheck disable=SC2086
    build -I. ${5/$file/$made/wrong.c} && ! timeout 100 "$made/wrong" $4 > /dev/null 2>&1
    tell "$told" $?
    client="undofs_client.c undofs_calls.c"
}

long="demo_long_files.c"
see "a long file of several versions is seen" undofs_calls.c 's/int begun = undofs_begin(u);/int begun = UNDOFS_INGROUP;/' "$program" $long
see "a long file that keeps a tail is seen" undofs_calls.c 's/UNDOFS_CREAT | UNDOFS_TRUNC, &file/UNDOFS_CREAT, \&file/' "$program" $long
see "a half file on a full flash is seen" undofs_calls.c 's/why == 0 ? undofs_end_group(u) : undofs_abandon(u)/undofs_end_group(u)/' "$program" $long
see "a name that is taken for none is seen" undofs_calls.c 's/int is_dash = .*/int is_dash = 0;/' "$program" $long
see "a word of no bytes that is not spelled is seen" undofs_calls.c "s/if (.word == 0) .at++ = '-';//" "$program" $long
see "an end that does not wait for the child is seen" undofs_client.c 's/while (waitpid(u->child, NULL, 0) < 0/while (0/' "$program" $long

nand="raw_nand.c nand_in_memory.c demo_spare_bits.c"
see "a sum of any place is seen" raw_nand.c 's/sum_more(sum_more(~0u, number, sizeof number), bytes, sizes->page)/sum_more(~0u + 0 * number[0], bytes, sizes->page)/' "" "$nand"
see "blank spare bytes over data that are taken for an erased page are seen" raw_nand.c 's/return are_ones(bytes, n->sizes.page) ? UNDOFS_ERASED : UNDOFS_UNREADABLE;/return UNDOFS_ERASED;/' "" "$nand"
see "a bad block that is told as programmed is seen" raw_nand.c '/^static enum undofs_answer program_page/,/^}/s/return UNDOFS_FAILED;/return UNDOFS_DONE;/' "" "$nand"

# A client that waits in a write of lines stands still, since the child waits for the answer to an order.
sed 's/fcntl(u->lines, F_SETFL, O_NONBLOCK)/fcntl(u->lines, F_SETFL, 0)/' undofs_client.c > "$made/blocking.c"
name=blocking client="$made/blocking.c undofs_calls.c"
build -I. flat_file.c demo_flat_file.c && timeout 60 "$made/$name" "$program" "$made/other" > /dev/null 2>&1
[ $? = 124 ]
tell "a client that waits in a write of lines is seen" $?
client="undofs_client.c undofs_calls.c"

# A driver that tells a failed page as written is caught: the check of the demo is none that always passes.
sed 's/return read_page(n, page, bytes) == UNDOFS_UNREADABLE.*/(void)n; (void)bytes; (void)page; return UNDOFS_DONE;/' raw_nand.c > "$made/wrong.c"
name=wrong_failure
build -I. "$made/wrong.c" nand_in_memory.c demo_raw_nand.c && ! "$made/$name" "$program" > /dev/null 2>&1
tell "a driver that tells a failed program as done is seen" $?

# Nor one without a sum: a page that a cut tore is taken for its bytes.
sed 's/are_near(spare, wanted) ?/(are_near(spare, wanted) || spare[0] == mark[0] || (spare[0] \& 1)) ?/' raw_nand.c > "$made/wrong.c"
name=wrong_sum
build -I. "$made/wrong.c" nand_in_memory.c demo_raw_nand.c && ! "$made/$name" "$program" > /dev/null 2>&1
tell "a driver that looks at no sum is seen" $?

# Nor one that allows for no flipped bit in the spare bytes, or for three.
for flips in 0 3; do
    sed "s/FLIPS = 2 /FLIPS = $flips /" raw_nand.c > "$made/wrong.c"
    name=wrong_flips
    build -I. "$made/wrong.c" nand_in_memory.c demo_spare_bits.c && ! "$made/$name" > /dev/null
    tell "a driver that allows for $flips flipped bits is seen" $?
done

python3 ../python/test_undofs.py "$program"
tell "undofs.py" $?

echo "$passed passed, $failed failed"
[ "$failed" = 0 ]
