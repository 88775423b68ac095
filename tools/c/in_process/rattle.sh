# shellcheck shell=bash disable=SC2034
# Sourced by build.sh and proofs.sh. rt takes no C functions in a run of the gate, so the prover is called here without it.
rt=${RT:-rt}
kit=$(dirname "$(dirname "$(readlink -f "$(command -v rt)")")")

# The crates that declare C functions.
of_c="c_flash c_chip c_nor c_dense_nor"

# Runs the prover on a crate over the libraries that were built in a folder: the folder, the crate, check or build, and more words.
# Each crate says which C it is linked with: those of C alone with any.
rattle() {
    local folder=$1 crate=$2 verb=$3 name words
    shift 3
    words=(--crate-name "$crate" src/lib.rt -L "dependency=$kit/rlibs" --antt-project "$kit/rattle/logic/antt-project.json" --logic-built "$kit/logic_built" --jobs 2)
    for name in std $(sed -n "s/^$crate\( [^:]*\)\?://p" "$folder/crates.txt"); do
        if [ -d "$kit/rlibs/$name.rlib" ]; then
            words+=(--extern "$name=$kit/rlibs/$name.rlib")
        else
            words+=(--extern "$name=$folder/crates/$name/out/rlib/$name.rlib")
        fi
    done
    for name in "$folder"/crates/*/out/rlib; do words+=(-L "dependency=$name"); done
    case " $of_c " in *" $crate "*) words+=(--links "$crate=c") ;; *) words+=(--links "$crate=") ;; esac
    (cd "$folder/crates/$crate" && "$kit/bin/rattle" "$verb" "${words[@]}" "$@")
}
