#!/bin/bash
# Tries undofs inside of a C program: tools/c/in_process/test.sh FOLDER PROGRAM [CASE ..]
# FOLDER is one that build.sh filled, PROGRAM the `uffs` of the same sources. Without a CASE all are tried: demos, example,
# sessions, handles, bytes, pages, liars, memory, holds, nor, dense_nor, checks, wrong, proofs. The last line counts. By hand, and no part of ./test.sh.
[ $# -ge 2 ] || { sed -n 2,4p "$0"; exit 2; }
room=$(realpath "$1") program=$(realpath "$2") || exit 2
shift 2
cd "$(dirname "$0")" || exit 2
made=$(mktemp -d)
trap 'rm -rf "$made"' EXIT
passed=0 failed=0
rt=${RT:-rt}
strict="-std=c11 -Wall -Wextra -Werror -pedantic -Wconversion -Wsign-conversion -Wshadow -Wstrict-prototypes -Wmissing-prototypes"
sanitizers="-fsanitize=address,undefined -fno-sanitize-recover"
export ASAN_OPTIONS=detect_stack_use_after_return=0
seeds=1500 requests=400

tell() {
    if [ "$2" = 0 ]; then
        passed=$((passed + 1))
        echo "ok    $1"
    else
        failed=$((failed + 1))
        echo "WRONG $1"
    fi
}

of_flash="service.c in_process.c shown_pages.c"
of_nor="service.c nor_driver.c nor_in_process.c shown_sectors.c"
of_dense_nor="service.c nor_driver.c dense_nor_in_process.c shown_sectors.c"

# Builds a program with a library: its name, the flags, and its sources. LIBRARY is the library, where it is not undofs_in_process; TURNS,
# CALLS and SYSTEM name the files that run the service, that have the calls and that are the handle, where others are wanted.
build() {
    local name=$1 flags=$2
    shift 2
    # shellcheck disable=SC2086
    ${CC:-gcc} $strict -g -O1 $flags -I. -I.. ${SYSTEM:-$of_flash} ${TURNS:-turns_context.c} ${CALLS:-../undofs_calls.c} "$@" \
        -Wl,--gc-sections "$room/lib${LIBRARY:-undofs_in_process}.a" "$room/libheap.a" -lm -lpthread -o "$made/$name"
}

# The same with the libraries for a serial NOR part, of each layout.
build_nor() { LIBRARY=undofs_nor_in_process SYSTEM=${SYSTEM:-$of_nor} build "$@"; }
build_dense_nor() { LIBRARY=undofs_dense_nor_in_process SYSTEM=${SYSTEM:-$of_dense_nor} build "$@"; }

# Builds a program with the checklist for drivers.
build_checks() {
    local name=$1 flags=$2
    shift 2
    # shellcheck disable=SC2086
    ${CC:-gcc} $strict -g -O1 $flags -I. -I.. "$@" -Wl,--gc-sections "$room/libundofs_driver_checks.a" "$room/libheap.a" \
        -lm -o "$made/$name"
}

# Builds the same over a child.
build_child() {
    local name=$1
    shift
    # shellcheck disable=SC2086
    ${CC:-gcc} $strict -g -O1 -I. -I.. ../undofs_client.c ../undofs_calls.c "$@" -o "$made/$name"
}

# Runs a program that was built, for so many seconds at most.
run() {
    local seconds=$1 name=$2 status
    shift 2
    timeout "$seconds" "$made/$name" "$@" 2> "$made/errors"
    status=$?
    grep -v "ASan doesn't fully support makecontext" "$made/errors" >&2
    return $status
}

# Runs a program that tells its own cases: what it is called, the seconds, its name, and its words.
run_cases() {
    local what=$1 status
    shift
    run "$@" > "$made/found"
    status=$?
    sed 's/^/      /' "$made/found"
    tell "$what" $status
}

# Runs a program, of which what it prints is wanted on standard input.
prints() {
    local what=$1
    shift
    run 120 "$@" > "$made/found"
    tell "$what ends well" $?
    diff - "$made/found"
    tell "$what prints what is wanted" $?
}

# ---- the demos of client_test.sh, over the library ----

try_demos() {
    build demo_flat_file "$sanitizers" ../flat_file.c ../demo_flat_file.c
    prints demo_flat_file demo_flat_file - "$made/part" << END
entries a name of 100 % name
entries
entries a name of 100 % name
100000 bytes, the same
norxxx
missing: 1
END
    build demo_failures "$sanitizers" ../demo_failures.c
    prints demo_failures demo_failures - << END
at the start: 0 files, no bad block
after failures: 4 files, some bad block
by a new child: 4 files, some bad block
END
    build demo_raw_nand "$sanitizers" ../raw_nand.c ../nand_in_memory.c ../demo_raw_nand.c
    prints demo_raw_nand demo_raw_nand - << END
raw NAND: 66 operations, 66 runs with a cut, 8 with failures, 0 wrong
END
    sed 's/return read_page(n, page, bytes) == UNDOFS_UNREADABLE.*/(void)n; (void)bytes; (void)page; return UNDOFS_DONE;/' ../raw_nand.c > "$made/wrong.c"
    build wrong_failure "$sanitizers" "$made/wrong.c" ../nand_in_memory.c ../demo_raw_nand.c && ! run 120 wrong_failure - > /dev/null 2>&1
    tell "a driver that tells a failed program as done is seen" $?
    sed 's/are_near(spare, wanted) ?/(are_near(spare, wanted) || spare[0] == mark[0] || (spare[0] \& 1)) ?/' ../raw_nand.c > "$made/wrong.c"
    build wrong_sum "$sanitizers" "$made/wrong.c" ../nand_in_memory.c ../demo_raw_nand.c && ! run 120 wrong_sum - > /dev/null 2>&1
    tell "a driver that looks at no sum is seen" $?
    build demo_long_files "$sanitizers" ../demo_long_files.c
    prints demo_long_files demo_long_files - << END
long files: some cuts 1, as many kills 1, 0 wrong
END
    try_wrong_calls "a long file of several versions" 's/int begun = undofs_begin(u);/int begun = UNDOFS_INGROUP;/'
    try_wrong_calls "a long file that keeps a tail" 's/UNDOFS_CREAT | UNDOFS_TRUNC, &file/UNDOFS_CREAT, \&file/'
    try_wrong_calls "a half file on a full flash" 's/why == 0 ? undofs_end_group(u) : undofs_abandon(u)/undofs_end_group(u)/'
    for turns in turns_context turns_thread; do
        TURNS=$turns.c build demo_ram "$sanitizers" demo_ram.c
        prints "demo_ram over $turns" demo_ram < demo_ram.stdout
    done
    build_child demo_ram demo_ram.c && run 120 demo_ram "$program" | diff demo_ram.stdout -
    tell "demo_ram prints the same over a child" $?
}

# Calls that are wrong, which demo_long_files has to see: what is wrong, and the edit.
try_wrong_calls() {
    sed "$2" ../undofs_calls.c > "$made/undofs_calls.c"
    CALLS=$made/undofs_calls.c build wrong_calls "" ../demo_long_files.c && ! run 300 wrong_calls - > /dev/null 2>&1
    tell "$1 is seen" $?
}

# ---- the example ----

# Whether a program that was built goes as the example's session tells.
goes_as_told() {
    local line
    rm -f "$made/disk.part"
    sed -n 's/^\$ trial disk.part //p' example/session > "$made/lines"
    while read -r line; do
        echo "\$ trial disk.part $line"
        # shellcheck disable=SC2086
        run 60 "$1" "$made/disk.part" $line || echo "status $?"
    done < "$made/lines" | diff example/session -
}

try_example() {
    local turns
    for turns in turns_context turns_thread; do
        TURNS=$turns.c build trial "$sanitizers" ../flat_file.c example/trial.c && goes_as_told trial
        tell "the example over $turns goes as its session tells" $?
    done
    sed 's/want(undofs_rollback(fs, "good"), "rollback");/want(undofs_unlink(fs, "\/trial"), "unlink");/' example/trial.c > "$made/trial.c"
    build wrong_trial "$sanitizers -Iexample" ../flat_file.c "$made/trial.c" && ! goes_as_told wrong_trial > /dev/null
    tell "an update that is not taken back is seen" $?
}

# ---- the same session in process and over a child ----

# Whether a program that was built leaves the same part and answers as one over a child: the program, the seed, and the sizes.
are_alike() {
    rm -f "$made/one.part" "$made/other.part"
    # shellcheck disable=SC2086
    run 120 "$1" "$made/one.part" "$2" $3 > "$made/one" && run 120 sessions_child "$made/other.part" "$2" $3 "$program" > "$made/other" &&
        cmp "$made/one.part" "$made/other.part" && cmp "$made/one" "$made/other"
}

try_sessions() {
    local differs=0 count=0 sizes seed
    build sessions "" ../flat_file.c tests/calls.c tests/sessions.c && build_child sessions_child ../flat_file.c tests/calls.c tests/sessions.c
    for sizes in "256 16 64" "512 8 128" "4096 1 256" "2048 64 32"; do
        for seed in 1 2 3 4 5; do
            are_alike sessions $seed "$sizes" || differs=$((differs + 1))
            count=$((count + 1))
        done
    done
    echo "      the last: $(cat "$made/one")"
    tell "$count sessions of 300 calls leave the same part and answers in process and over a child" $differs
    sed 's/f->handle.history = history;/f->handle.history = history + 1;/' in_process.c > "$made/in_process.c"
    SYSTEM=${of_flash/in_process.c/$made/in_process.c} build wrong_sessions "" ../flat_file.c tests/calls.c tests/sessions.c
    run 120 wrong_sessions "$made/wrong.part" 1 256 16 64 > /dev/null && ! are_alike wrong_sessions 1 "256 16 64" > /dev/null
    tell "another history is seen" $?
}

# ---- handles, pages, liars, memory ----

try_handles() {
    local turns
    for turns in turns_context turns_thread; do
        TURNS=$turns.c build handles "$sanitizers" tests/ram_part.c tests/calls.c tests/handles.c
        run_cases "handles over $turns" 300 handles
    done
    TURNS=turns_thread.c build handles -fsanitize=thread tests/ram_part.c tests/calls.c tests/handles.c
    run_cases "handles under the thread sanitizer" 300 handles
}

try_bytes() {
    build bytes "$sanitizers" tests/ram_part.c tests/bytes.c
    run_cases "bytes of files of many lengths" 300 bytes
    build_child bytes_child tests/ram_part.c tests/bytes.c
    run_cases "the same over a child" 300 bytes_child "$program"
}

try_pages() {
    build pages "$sanitizers" tests/ram_part.c tests/calls.c tests/pages.c
    run_cases pages 300 pages
}

try_liars() {
    local sizes
    build liars "" tests/ram_part.c tests/calls.c tests/liars.c
    build liars_sanitized "$sanitizers" tests/ram_part.c tests/calls.c tests/liars.c
    for sizes in "256 16 128" "4096 1 128"; do
        # shellcheck disable=SC2086
        run_cases "$seeds sessions over a driver that lies, $sizes" 3000 liars 0 $seeds $sizes
        # shellcheck disable=SC2086
        run_cases "$((seeds / 10)) of them under the sanitizers" 3000 liars_sanitized 0 $((seeds / 10)) $sizes
    done
}

wraps="-Wl,--wrap=malloc,--wrap=calloc,--wrap=realloc"

try_memory() {
    local flags
    for flags in "" "$sanitizers"; do
        build memory "$flags $wraps" tests/ram_part.c tests/memory.c
        [ "$(run 1200 memory 0 $requests)" = "$requests requests, $requests met, 0 ended badly" ]
        tell "memory fails at each of the first $requests requests ($([ -n "$flags" ] && echo sanitized || echo plain))" $?
    done
}

# What is held: a figure, which is wrong only where a call is refused.
try_holds() {
    TURNS=tests/holds.c build holds "" ../flat_file.c
    rm -f "$made/held.part"
    run_cases "what a mounted file system holds" 300 holds "$made/held.part"
}

# ---- a serial NOR part, and the checklist for drivers ----

try_nor() {
    build_nor nor "$sanitizers" tests/nor_memory.c tests/nor_sessions.c tests/calls.c tests/nor.c
    run_cases "a serial NOR part" 900 nor
}

try_dense_nor() {
    build_dense_nor dense_nor "$sanitizers" tests/nor_memory.c tests/nor_sessions.c tests/calls.c tests/dense_nor.c
    run_cases "a serial NOR part of the dense layout" 900 dense_nor
}

nand="../nand_in_memory.c ../raw_nand.c"

try_checks() {
    # shellcheck disable=SC2086
    build_checks checks "$sanitizers" driver_checks.c $nand tests/checks.c
    run_cases "the checklist over drivers in C" 300 checks
    try_wrong_nand 5 "a driver that tells a failed program as done" 's/return read_page(n, page, bytes) == UNDOFS_UNREADABLE.*/(void)n; (void)bytes; (void)page; return UNDOFS_DONE;/'
    try_wrong_nand 7 "a driver that looks at no sum" 's/are_near(spare, wanted) ?/(are_near(spare, wanted) || spare[0] == mark[0] || (spare[0] \& 1)) ?/'
}

# The checklist over a driver for raw NAND that is wrong: the place of the case that tells it, what is wrong, and the edit.
try_wrong_nand() {
    sed "$3" ../raw_nand.c > "$made/raw_nand.c"
    # shellcheck disable=SC2086
    build_checks wrong_nand "$sanitizers" driver_checks.c ${nand/..\/raw_nand.c/$made\/raw_nand.c} tests/checks.c
    run_cases "$2 is told by its case" 300 wrong_nand "$1"
}

# ---- C that is wrong, which a case has to see ----

# An edit of a file, by sed, that the program of a case has to fail: what is wrong, the file, the edit, how the program is built, and
# its words.
wrong() {
    local what=$1 file=$2 edit=$3 how=$4 status
    shift 4
    sed "$edit" "$file" > "$made/$file"
    if cmp -s "$file" "$made/$file"; then
        tell "$what: the edit applies" 1
        return
    fi
    "wrong_$how" "$file" || { tell "$what: it builds" 1; return; }
    run 300 wrong "$@" > /dev/null 2>&1
    status=$?
    tell "$what is seen, by a case that ends" $((status == 0 || status == 124))
}

# How each program is built with an edited file.
wrong_flash() { SYSTEM=${of_flash/$1/$made/$1} build wrong "" tests/ram_part.c tests/calls.c "tests/$2.c"; }
wrong_handles() { wrong_flash "$1" handles; }
wrong_bytes() { wrong_flash "$1" bytes; }
wrong_pages() { wrong_flash "$1" pages; }
wrong_liars() { wrong_flash "$1" liars; }
wrong_memory() { SYSTEM=${of_flash/$1/$made/$1} build wrong "$wraps" tests/ram_part.c tests/memory.c; }
wrong_nor() { SYSTEM=${of_nor/$1/$made/$1} build_nor wrong "" tests/nor_memory.c tests/nor_sessions.c tests/calls.c tests/nor.c; }
wrong_dense_nor() { SYSTEM=${of_dense_nor/$1/$made/$1} build_dense_nor wrong "" tests/nor_memory.c tests/nor_sessions.c tests/calls.c tests/dense_nor.c; }
# shellcheck disable=SC2086
wrong_checks() { build_checks wrong "" "$made/$1" $nand tests/checks.c; }

try_wrong() {
    wrong second_open_is_a_part in_process.c 's/is_first ? s->blocks : 0/is_first ? s->blocks : s->blocks/' handles
    wrong an_unread_page_has_no_number in_process.c 's/^    if (state == C_FLASH_READ_FAILED) .*//' handles
    wrong an_unread_page_is_not_why_a_start_is_refused service.c 's/if (why != READ_FAILED) snprintf/snprintf/' handles
    wrong one_driver_in_two_handles service.c 's/return !is_had;/return 1;/' handles
    wrong a_copy_of_a_driver_is_another service.c 's/return u->driver == other->driver ||.*/return u->driver == other->driver;/' handles
    wrong a_call_of_the_driver_writes_the_line service.c 's/    if (u->is_running) return &u->none;//' handles
    wrong a_handle_is_live_after_its_end service.c 's/^    leave(u);$//' handles
    wrong pieces_lie_over_one_another service.c 's/^        data += count;$//' bytes
    wrong bytes_are_in_no_reply service.c 's/form == C_REQUESTS_BYTES/form > C_REQUESTS_BYTES/' bytes
    wrong a_request_left_out_comes_again service.c 's/    u->lines = measure(u->lines, u->lines_end, &next);/    (void)measure(u->lines, u->lines_end, \&next);/' memory 0 "$requests"
    wrong changed_page_is_shown shown_pages.c 's/(shown == NOT_SEEN || shown == now)/(shown == now || shown != now)/' liars 0 40 256 16 128
    wrong half_of_a_page_is_summed shown_pages.c 's/sum_of(bytes, count)/sum_of(bytes, count \/ 2)/' pages
    wrong what_a_cut_left_is_not_settled shown_pages.c 's/is_sure(shown, now) ? now : SEEN_UNREADABLE/is_sure(shown, now) ? now : now/' pages
    wrong a_failed_page_is_shown shown_pages.c 's/told == UNDOFS_DONE ? wanted : SEEN_UNREADABLE/wanted/' pages
    wrong changed_bytes_are_shown shown_sectors.c 's/(shown == NOT_SEEN || shown == now)/(shown == now || shown != now)/' nor
    wrong what_is_lost_is_shown shown_sectors.c 's/return is_lawful ? now : (uint32_t)NEVER_SHOWN;/return is_lawful ? now : now;/' nor
    wrong marks_leave_no_trace shown_sectors.c 's/ \&\& !(is_failed \&\& is_without_trace(o, s->page))/ \&\& (is_failed || !is_failed || is_without_trace(o, s->page))/' nor
    wrong a_cut_is_not_remembered shown_sectors.c 's/^    s->is_cut = 1;$//' nor
    wrong a_mark_by_chance_is_shown shown_sectors.c 's/ \&\& begins_mark(now, place)) return 0;/ \&\& 0 > 1) return 0;/' dense_nor
    wrong marks_beside_may_change shown_sectors.c 's/) return now == before;/) return now == before || now != 0;/' dense_nor
    wrong a_second_handle_on_nor nor_driver.c 's/n->handle.driver = driver;/n->handle.driver = n;/;s/n->handle.part = driver->part;/n->handle.part = n;/' nor
    wrong power_is_never_off driver_checks.c 's/^    run->is_cut = 1;$/    run->is_cut = 0;/' checks
    wrong sizes_are_those_of_the_sheet driver_checks.c 's/chip->told_blocks = told.blocks;//' checks
}

# ---- the proofs ----

. ./proofs.sh

cases=${*:-demos example sessions handles bytes pages liars memory holds nor dense_nor checks wrong proofs}
for case in $cases; do "try_$case"; done
echo "$passed passed, $failed failed"
[ "$failed" = 0 ]
