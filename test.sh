#!/bin/bash
# Runs all that judges this repository: ./test.sh [quick]
#   ./test.sh        the gate (rt ci, by tools/rt_ci.py), edits (tools/try_edits.py), then the checks of tools/ that need no rights,
#                    with the program that the gate built
#   ./test.sh quick  all tests and programs with no proof (tools/try_quickly.py), and the checks that need no program
# The last line is `N passed, M failed` over all of them, and the status is 0 only where M is 0. Before it stands what each
# part took.
cd "$(dirname "$0")" || exit 2
exec < /dev/null
passed=0 failed=0 program=$PWD/crates/uffs/out/uffs
parts=() clock=0 used=0

# Runs a command that ends in a line `N passed, M failed`, and adds these.
counted() {
    echo "== $*"
    local log status line
    log=$(mktemp)
    "$@" 2>&1 | tee "$log"
    status=${PIPESTATUS[0]}
    line=$(grep -E '^[0-9]+ passed, [0-9]+ failed' "$log" | tail -n 1)
    rm -f "$log"
    set -- $(sed -nE 's/^([0-9]+) passed, ([0-9]+) failed.*/\1 \2/p' <<< "$line")
    passed=$((passed + ${1:-0})) failed=$((failed + ${2:-0}))
    # a command that ends badly and counts no failure is one
    [ "$status" = 0 ] || [ "${2:-0}" != 0 ] || failed=$((failed + 1))
    [ "$status" != 0 ] || [ -n "$line" ] || failed=$((failed + 1))
}

# Runs a check, which is one that passed or failed.
checked() {
    echo "== $*"
    if timeout 1800 "$@" 2>&1; then
        passed=$((passed + 1))
    else
        echo "WRONG $*"
        failed=$((failed + 1))
    fi
}

# Keeps what a part took since the one before it: by the clock, and of processor time, of all commands that have ended.
took() {
    local of all
    read -ra of < "/proc/$$/stat"
    all=$(((of[15] + of[16]) / $(getconf CLK_TCK)))
    parts+=("$1: $(((SECONDS - clock + 30) / 60)) minutes by the clock, $(((all - used + 30) / 60)) of processor time")
    clock=$SECONDS used=$all
}

case ${1:-} in
    '') counted tools/rt_ci.py
        took "rt ci"
        # (an edit of a crate that is not proved tells nothing)
        if [ "$failed" = 0 ]; then
            # what is left of 130 minutes, 20 at most
            minutes=$((130 - SECONDS / 60))
            minutes=$((minutes < 1 ? 1 : minutes < 20 ? minutes : 20))
            counted tools/try_edits.py --confirmed --jobs "$(nproc)" --minutes $minutes
            took tools/try_edits.py
        else
            echo "== the edits are not tried, since the gate failed"
        fi ;;
    quick) counted tools/try_quickly.py
        took tools/try_quickly.py ;;
    *) echo "test.sh: it takes quick, or no word" >&2
       exit 2 ;;
esac

checked tools/check_docs.py
checked tools/check_messages.py
checked tools/check_edits.py
checked tools/write_proved.py --check
checked tools/check_tar.py
checked tools/tests/test_rt_ci.py
checked tools/tests/test_check_docs.py
checked tools/tests/test_check_edits.py
checked tools/tests/test_check_tar.py
checked tools/tests/test_check_messages.py
checked tools/tests/test_write_proved.py
checked tools/tests/test_measure_depth.py
if [ "${1:-}" = quick ]; then
    checked tools/tests/test_try_edits.py
else
    checked tools/tests/test_try_edits.py --proofs
    checked tools/check_host.py "$program"
    checked tools/tests/test_check_host.py "$program"
    checked tools/check_serve.py "$program"
    checked tools/check_tar.py "$program"
    checked tools/check_kills.py "$program" 20
    counted tools/c/client_test.sh "$program"
fi

took "the checks of tools/"

printf '%s\n' "${parts[@]}"
echo "$passed passed, $failed failed"
[ "$failed" = 0 ]
