# What bash completes after `uffs`. Written by tools/write_manual.py from the texts of the help.
_uffs() {
    local word="${COMP_WORDS[COMP_CWORD]}"
    local words="cat check checkpoint copy create df diff du explain forget format from-part from-raw get goto help history log ls map memory put raw redo rmcheckpoint rollback run serve tar to-part tree trim undo untar update version versions"
    if [ "$COMP_CWORD" -eq 1 ]; then
        COMPREPLY=($(compgen -W "$words --help --version" -- "$word"))
        return
    fi
    if [ "$COMP_CWORD" -eq 2 ] && [ "${COMP_WORDS[1]}" = help ]; then
        COMPREPLY=($(compgen -W "$words --help" -- "$word"))
        return
    fi
    local options="--help"
    case "${COMP_WORDS[1]}" in
        copy) options="--page --pages --blocks --history --salvage --help" ;;
        create) options="--page --pages --blocks --history --progress --skip-links --help" ;;
        diff) options="--exit-code --help" ;;
        forget) options="--free --help" ;;
        format) options="--part --page --pages --blocks --history --help" ;;
        from-raw) options="--page --pages --blocks --help" ;;
        map) options="--html --help" ;;
        put) options="--progress --mirror --skip-links --help" ;;
        run) options="--stop --help" ;;
        serve) options="--part --history --help" ;;
        untar) options="--skip-links --help" ;;
        update) options="--changes --help" ;;
    esac
    if [[ "$word" == -* ]]; then
        COMPREPLY=($(compgen -W "$options" -- "$word"))
    else
        COMPREPLY=($(compgen -f -- "$word"))
    fi
}
complete -o filenames -F _uffs uffs
