# shellcheck shell=bash disable=SC2154
# Sourced by test.sh: what the prover and the compiler have to refuse, in a copy of the crates with C functions and of what is below.
# shellcheck source=rattle.sh
. ./rattle.sh

# A copy of the crates of FOLDER as they were built.
copy_crates() {
    local crate
    rm -rf "$made/copy"
    mkdir -p "$made/copy/crates"
    for crate in fs_types flash_model nor_part dense_nor c_answers $of_c; do
        cp -a "$room/crates/$crate" "$made/copy/crates/"
        grep -E "^$crate( [^:]*)?:" "$room/crates.txt" >> "$made/copy/crates.txt"
    done
}

# Edits a file of a crate in the copy by sed, which has to change it: what the edit is, the crate, the file, the edit.
edit() {
    local file=$made/copy/crates/$2/src/$3
    cp "$file" "$made/before"
    sed -i "$4" "$file"
    cmp -s "$file" "$made/before" && tell "$1: the edit applies" 1
}

# Checks a crate in the copy.
check() { (rattle "$made/copy" "$1" check --incremental "$made/copy/incremental") > "$made/said" 2>&1; }

# Of a function, by its name with the crate: that it was refused, or that it was proved.
is_refused() {
    grep -qE "^fn $2: (not proved|no proof)" "$made/said"
    tell "$1" $?
}

is_proved() {
    grep -q "^fn $2: proved" "$made/said"
    tell "$1" $?
}

# Each `ensures` of a C function is dropped; what stands on it is refused.
drop='s/.*/;/'

try_ensures_of_flash() {
    edit read c_flash c_flash.rt "/^        ensures { Reads /$drop"
    edit program c_flash c_flash.rt "/^        ensures { Programs /$drop"
    edit erase c_flash c_flash.rt "/^        ensures { Erases /$drop"
    edit power_on c_flash c_flash.rt "/^        ensures { part_device part.new /$drop"
    edit next c_flash requests.rt "/fn c_requests_next/,/;\$/{/^        ensures tells /$drop}"
    edit take c_flash requests.rt '/fn c_requests_take/,/;$/{/^        ensures takes /d}'
    edit skip c_flash requests.rt '/fn c_requests_skip/,/;$/{/^        ensures skips /d}'
    edit answer c_flash requests.rt "/fn c_requests_answer/,/;\$/{/^        ensures taken /$drop}"
    check c_flash
    tell "c_flash with no ensures is refused" $(($? == 0))
    is_refused "a read of which nothing is ensured is refused" c_flash::c_flash::CFlashFlash::read
    is_refused "a program of which nothing is ensured is refused" c_flash::c_flash::CFlashFlash::program
    is_refused "an erase of which nothing is ensured is refused" c_flash::c_flash::CFlashFlash::erase
    is_refused "power of which nothing is ensured is refused" c_flash::c_flash::CFlashFlash::power_on
    is_refused "a next request of which nothing is told is refused" c_flash::requests::CRequests::next
    is_refused "a request of which no bytes are ensured is refused" c_flash::requests::CRequests::take
    is_refused "a request that need not go is refused" c_flash::requests::CRequests::skip
    is_refused "replies in words of which nothing is ensured are refused" c_flash::requests::CRequests::answer_in_words
    is_refused "replies in bytes of which nothing is ensured are refused" c_flash::requests::CRequests::answer_in_bytes
    is_proved "and what does not stand on them is proved" c_flash::c_flash::CFlashFlash::geometry
}

try_ensures_of_nor() {
    edit read c_nor c_nor.rt "/^        ensures read /d"
    edit program c_nor c_nor.rt "/^        ensures programs /d"
    edit erase c_nor c_nor.rt "/^        ensures erases /d"
    edit power_on c_nor c_nor.rt "/fn c_nor_power_on/,/;$/{/^        ensures held /d}"
    check c_nor
    tell "c_nor with fewer ensures is refused" $(($? == 0))
    is_refused "a read of NOR of which no bytes are ensured is refused" c_nor::c_nor::CNorNor::read
    is_refused "a program of NOR of which nothing is ensured is refused" c_nor::c_nor::CNorNor::program
    is_refused "an erase of NOR of which nothing is ensured is refused" c_nor::c_nor::CNorNor::erase
    is_refused "power of NOR of which nothing is ensured is refused" c_nor::c_nor::CNorNor::power_on
    is_proved "and what does not stand on them is proved" c_nor::c_nor::CNorNor::page_count
}

try_ensures_of_dense_nor() {
    edit keeps c_dense_nor c_dense_nor.rt "/^        ensures keeps /d"
    edit unmarked c_dense_nor c_dense_nor.rt "/^        ensures unmarked { (page i/$drop"
    check c_dense_nor
    tell "c_dense_nor with fewer ensures is refused" $(($? == 0))
    is_refused "a program of which it is not ensured that others stay is refused" c_dense_nor::c_dense_nor::CDenseNorDenseNor::program_dense
    is_refused "an erase of which marks are not ensured is refused" c_dense_nor::c_dense_nor::CDenseNorDenseNor::erase_dense
    is_proved "and what does not stand on them is proved" c_dense_nor::c_dense_nor::CDenseNorNor::erase
}

try_ensures_of_chip() {
    edit read c_chip c_chip.rt "/^        ensures shows { ReportsPage (pages_of chip/d"
    edit moments c_chip c_chip.rt "/^        ensures { result ≡ moments_at /$drop"
    edit keeps c_chip c_chip.rt "/^        ensures { KeepsSheet chip/$drop"
    edit plan c_chip c_chip.rt "/^        ensures { OnlyShows chip/$drop"
    check c_chip
    tell "c_chip with fewer ensures is refused" $(($? == 0))
    for name in read moments program erase plan restart; do
        is_refused "$name of a chip of which that is not ensured is refused" "c_chip::c_chip::CChip::$name"
    done
    is_proved "and what does not stand on them is proved" c_chip::c_chip::CChip::sheet
}

try_ensures() {
    copy_crates
    try_ensures_of_flash
    try_ensures_of_nor
    try_ensures_of_dense_nor
    try_ensures_of_chip
}

# Adds calls of tests/refused, each of which breaks a `requires` of a C function, to a file of a crate in the copy.
add_calls() { cat "tests/refused/$1.in" >> "$made/copy/crates/$2/src/$3.rt"; }

# Of functions of a file, by its name with the crate: that each was refused.
are_refused() {
    local within=$1 name
    shift
    for name in "$@"; do is_refused "$name of ${within##*::} is refused" "$within::$name"; done
}

try_edits_of_flash() {
    edit page_out_of_range_is_asked c_flash c_flash.rt 's/state(unsafe { c_flash_read(self, page, buffer) })/state(unsafe { c_flash_read(self, page | 1, buffer) })/'
    edit reply_is_cut_short c_flash requests.rt 's/c_requests_answer(self, 0, line)/c_requests_answer(self, 0, \&line[..line.len() \/ 2])/'
    edit bytes_are_told_as_words c_flash requests.rt 's/c_requests_answer(self, 1, bytes)/c_requests_answer(self, 0, bytes)/'
    add_calls requests c_flash requests
    add_calls flash c_flash c_flash
    check c_flash
    tell "c_flash with edits is refused" $(($? == 0))
    is_refused "page_out_of_range_is_asked is refused" c_flash::c_flash::CFlashFlash::read
    is_refused "reply_is_cut_short is refused" c_flash::requests::CRequests::answer_in_words
    is_refused "bytes_are_told_as_words is refused" c_flash::requests::CRequests::answer_in_bytes
    are_refused c_flash::c_flash read_in_no_range read_of_any_length program_in_no_range program_of_any_length program_of_what_is_there erase_in_no_range
    are_refused c_flash::requests take_of_any_length
    is_proved "and a call as it has to be is proved" c_flash::c_flash::program_as_it_has_to_be
}

try_edits_of_nor() {
    add_calls nor c_nor c_nor
    check c_nor
    tell "c_nor with calls out of bounds is refused" $(($? == 0))
    are_refused c_nor::c_nor read_in_no_range read_of_any_length program_in_no_range program_of_any_length erase_in_no_range
    is_proved "and a call as it has to be is proved" c_nor::c_nor::erase_as_it_has_to_be
}

try_edits_of_dense_nor() {
    add_calls dense_nor c_dense_nor c_dense_nor
    check c_dense_nor
    tell "c_dense_nor with calls out of bounds is refused" $(($? == 0))
    are_refused c_dense_nor::c_dense_nor program_in_no_range program_of_any_length erase_in_no_range
    is_proved "and a call as it has to be is proved" c_dense_nor::c_dense_nor::erase_as_it_has_to_be
}

try_edits_of_chip() {
    add_calls chip c_chip c_chip
    check c_chip
    tell "c_chip with calls out of bounds is refused" $(($? == 0))
    are_refused c_chip::c_chip read_in_no_range read_of_any_length program_in_no_range program_of_any_length program_of_what_is_there erase_in_no_range plan_at_no_moment
    is_proved "and a call as it has to be is proved" c_chip::c_chip::plan_as_it_has_to_be
}

# Edits of the code, and a call for each `requires` that breaks it.
try_edits() {
    copy_crates
    try_edits_of_flash
    try_edits_of_nor
    try_edits_of_dense_nor
    try_edits_of_chip
    edit unreadable_is_told_as_data c_answers lib.rt 's/2 => Ok(PageState::Unreadable)/2 => Ok(PageState::Data)/'
    check c_answers
    is_refused "unreadable_is_told_as_data is refused" c_answers::state
}

# A crate above c_flash, of one function, that the compiler has to refuse with these words.
refuse_above() {
    local what=$1 told=$2 body=$3
    mkdir -p "$made/copy/crates/above/src"
    printf '//! A crate above.\n#![tactic(auto)]\n\n%s\n' "$body" > "$made/copy/crates/above/src/lib.rt"
    (rattle "$made/copy" above check) > "$made/said" 2>&1
    tell "$what does not compile" $(($? == 0))
    grep -qE "$told" "$made/said"
    tell "$what is refused for that" $?
}

try_above() {
    copy_crates
    echo 'above: c_flash' >> "$made/copy/crates.txt"
    refuse_above part_is_cloned 'lib.rt:5:.*error.*clone' 'pub fn twin(part: &c_flash::CFlash) -> c_flash::CFlash {
    part.clone()
}'
    refuse_above part_is_written 'error\[private-field\].*blocks' 'pub fn grow(part: &mut c_flash::CFlash) {
    part.blocks = 1;
}'
    refuse_above held_is_named 'error\[private-item\].*Held' 'pub fn hold(held: &c_flash::held::Held) -> bool {
    true
}'
}

# The sources of these crates make and write no ghost content: no line names what holds it but where it is declared, and nothing is
# proved by hand.
try_sources() {
    local crate sources types='Held|HeldPages|Shown|Exchanged|CFlash|CNor|CChip|CRequests'
    for crate in $of_c; do
        sources=crates/$crate
        [ ! -e "$sources/proofs" ] && [ ! -e "$room/crates/$crate/proofs" ]
        tell "$crate has no proofs by hand" $?
        ! grep -rhE "\b($types) \{" "$sources/src" | grep -vE "^(pub |pub\(crate\) )?struct |^impl |-> ($types) \{$"
        tell "no line of $crate makes a part or what it holds" $?
        ! grep -rnE 'mem::(swap|replace|take)|\*(self|part|chip|requests) =|\.(held|shown|exchanged|left|taken) =|derive\(.*(Clone|Copy)' "$sources/src"
        tell "no line of $crate writes, swaps or copies one" $?
        ! grep -rnE 'pub (ghost|held|shown|exchanged|left|taken|handle|page|pages|blocks|told_page|told_pages|told_blocks)\b' "$sources/src"
        tell "its fields are private" $?
    done
}

# Of a library: how many C functions of a crate it reaches, of how many.
reaches() {
    grep -q "^axioms $2: $3 reached of the $4 declared" "$room/$1.said"
    tell "$1 reaches $3 of the $4 C functions of $2" $?
}

# What build.sh was told: the verdicts, and the C functions that the libraries reach.
try_verdicts() {
    local crate
    for crate in $(sed 's/[ :].*//' crates.txt.in); do
        grep '^logic=' "$room/$crate.said" | tail -1 | cut -c1-120 | sed "s/^/      $crate: /"
        grep -q '^logic=proved ' "$room/$crate.said"
        tell "$crate is proved" $?
    done
    grep -hE '^axioms [a-z_]+: [0-9]+ reached|  reached$' "$room"/undofs_*.said | sed 's/^/      /'
    reaches undofs_in_process c_flash 10 10
    reaches undofs_nor_in_process c_flash 5 10
    reaches undofs_nor_in_process c_nor 5 5
    reaches undofs_dense_nor_in_process c_dense_nor 2 2
    reaches undofs_driver_checks c_chip 7 7
}

try_proofs() {
    try_sources
    try_ensures
    try_edits
    try_above
    try_verdicts
}
