#!/bin/bash
# Proves undofs for a C program and builds it: tools/c/in_process/build.sh FOLDER [CHECKOUT]
# FOLDER lies outside of the checkout. It gets libundofs_in_process.a, libundofs_nor_in_process.a, libundofs_dense_nor_in_process.a,
# libundofs_driver_checks.a, libheap.a, what the prover said, and the work of the proofs, and is kept for the next time. The crates below are those of the
# gate: `rt ci` proves them there, or takes what it proved on this machine before. The crates of this folder are proved over them;
# what is assumed of C is c_flash, c_nor, c_dense_nor and c_chip alone. The last lines name the C functions that each library reaches, and tell
# the verdicts. With CHECKOUT, where `rt lib` proved crates below, their libraries are taken from there as they are, and only what is
# not there, or is of other sources or another toolchain, is proved here. Of each it is told which.
set -eo pipefail
here=$(cd "$(dirname "$0")" && pwd)
top=$(cd "$here/../../.." && pwd)
[ $# = 1 ] || [ $# = 2 ] || { sed -n 2,9p "$0"; exit 2; }
proved=${2:+$(cd "$2" && pwd)}
mkdir -p "$1"
room=$(cd "$1" && pwd)
case $room/ in "$top"/*) echo "build.sh: give a folder outside of the checkout, whose gate reads each .rt file" >&2; exit 2 ;; esac
# shellcheck source=rattle.sh
. "$here/rattle.sh"

# The names of a crates.txt that some of its crates stand on, they themselves too.
names_below() {
    python3 - "$@" << 'END'
import sys
lines = [line.split("#")[0].strip() for line in open(sys.argv[1])]
table = {line.split(":")[0].split()[0]: line.split(":")[1].split() for line in lines if line}
wanted, left = [], sys.argv[2:]
while left:
    name = left.pop()
    if name in table and name not in wanted:
        wanted.append(name)
        left += table[name]
print(*wanted)
END
}

# A crate below, with all that is read for its proof; edits that the gate refuses are tried there.
copy_crate() {
    mkdir -p "$room/crates/$1"
    find "$room/crates/$1" -mindepth 1 -maxdepth 1 ! -name out -exec rm -rf {} +
    (cd "$top/crates/$1" && find . -mindepth 1 -maxdepth 1 ! -name out ! -name must-fail ! -name wrong -exec cp -a {} "$room/crates/$1/" \;)
    grep -E "^$1( [^:]*)?:" "$top/crates.txt" >> "$room/crates.txt"
}

# The libraries below as CHECKOUT has them. A stamp is a sum of all that a library was made from; `rt lib` proves those that it does not fit.
take_libraries() {
    local name
    for name in "$@"; do
        rm -rf "${room:?}/crates/$name/out/rlib"
        mkdir -p "$room/crates/$name/out"
        [ ! -f "$proved/crates/$name/out/rlib/stamp" ] || cp -a "$proved/crates/$name/out/rlib" "$room/crates/$name/out/"
    done
    for name in $(sed 's/.*://' "$here/crates.txt.in"); do
        case " $* " in *" $name "*) (cd "$room/crates/$name" && "$rt" lib) || return ;; esac
    done
    for name in "$@"; do
        if cmp -s "$proved/crates/$name/out/rlib/stamp" "$room/crates/$name/out/rlib/stamp"; then
            echo "$name: proved in $proved"
        else
            echo "$name: proved here"
        fi
    done
}

# A crate of this folder, whose files end in .in, since the gate takes no C functions.
put_crate() {
    rm -rf "${room:?}/crates/$1/src" "$room/crates/$1/specs" "$room/crates/$1/proofs"
    (cd "$here/crates/$1" && find . -name '*.in') | while read -r file; do
        mkdir -p "$(dirname "$room/crates/$1/$file")"
        cp "$here/crates/$1/$file" "$room/crates/$1/${file%.in}"
    done
    [ ! -f "$here/crates/$1/taken.txt" ] || take_files "$1" < "$here/crates/$1/taken.txt"
}

# Files of a crate below that a crate of this folder has too, with their proofs: each line tells a crate and a path in it.
take_files() {
    local crate path file
    while read -r crate path; do
        (cd "$top/crates/$crate" && find "$path" -type f) | while read -r file; do
            mkdir -p "$(dirname "$room/crates/$1/$file")"
            sed "s/Rattle\.$crate\.proofs\./Rattle.$1.proofs./g" "$top/crates/$crate/$file" > "$room/crates/$1/$file"
        done
    done
}

# What a crate of this folder is made from: its files, the libraries below it, the toolchain, and how it is built.
sum_of_crate() {
    local name
    {
        (cd "$room/crates/$1" && find src specs proofs -type f -exec sha256sum {} + 2> /dev/null | sort)
        for name in $(names_below "$room/crates.txt" "$1"); do
            [ "$name" = "$1" ] || (cd "$room/crates/$name/out/rlib" && find . -path '*.rlib/*' -type f -exec sha256sum {} + | sort)
        done
        "$rt" version
        grep -E "^$1( [^:]*)?:" "$here/crates.txt.in"
        cat "$here/build.sh" "$here/rattle.sh"
    } | sha256sum
}

# The sums of what was made of it, and of what was said.
sum_of_made() { (cd "$room" && find "lib$1.a" "crates/$1/out/rlib/$1.rlib" "$1.said" -type f -exec sha256sum {} + 2> /dev/null | sort); }

# Builds a crate of this folder, where it is proved: a library for the crates above it, or one for C. One that was built here from the
# same before stays.
build_crate() {
    local made_from
    made_from=$(sum_of_crate "$1")
    [ "$made_from $(sum_of_made "$1")" != "$(cat "$room/$1.made" 2> /dev/null)" ] || return 0
    rm -rf "${room:?}/$1.made" "$room/lib$1.a" "$room/crates/$1/out/rlib"
    mkdir -p "$room/crates/$1/out/rlib"
    prove_crate "$1" > "$room/$1.said" 2>&1 || { cat "$room/$1.said"; return 1; }
    echo "$made_from $(sum_of_made "$1")" > "$room/$1.made"
}

prove_crate() {
    local links=() name
    if grep -q "^$1 staticlib:" "$here/crates.txt.in"; then
        for name in $(names_below "$room/crates.txt" "$1"); do
            case " $of_c " in *" $name "*) links+=(--links "$name=c") ;; esac
        done
        rattle "$room" "$1" build --empty-contracts --list-axioms "${links[@]}" --crate-type staticlib --toolchain "$kit/toolchain" --backend llvm -o "$room/lib$1.a"
    else
        rattle "$room" "$1" build --empty-contracts --list-axioms -o "out/rlib/$1.rlib"
    fi
}

own=$(sed 's/[ :].*//' "$here/crates.txt.in")
for name in $own; do rm -rf "${room:?}/crates/$name/src" "$room/crates/$name/specs" "$room/crates/$name/proofs"; done
: > "$room/crates.txt"
cp "$top/HANDLES" "$room/"
# shellcheck disable=SC2046
below=$(names_below "$top/crates.txt" $(sed 's/.*://' "$here/crates.txt.in"))
for name in $below; do copy_crate "$name"; done
if [ -n "$proved" ]; then
    # shellcheck disable=SC2086
    take_libraries $below | tee "$room/below.said"
else
    (cd "$room" && "$rt" ci) | tee "$room/below.said" | grep -E '^(rt: [a-z_]+ (proved|is kept)|rt: ok|[0-9]+ passed)'
fi

cat "$here/crates.txt.in" >> "$room/crates.txt"
for name in $own; do put_crate "$name"; done
cp "$kit/c/liblibc_c.a" "$room/libheap.a"
for name in $own; do
    build_crate "$name"
    echo "$name: $(grep '^logic=' "$room/$name.said" | tail -1)"
done
for name in $(sed -n 's/ staticlib:.*//p' "$here/crates.txt.in"); do
    echo "lib$name.a"
    grep -E '^axioms [a-z_]+: [0-9]+ reached|  reached$' "$room/$name.said"
done
