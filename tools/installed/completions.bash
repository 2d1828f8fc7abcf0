# Completion of domepeeler and its tools in bash.

_domepeeler() {
    local word=${COMP_WORDS[COMP_CWORD]} before=${COMP_WORDS[COMP_CWORD-1]} options
    case $before in
        --workers) COMPREPLY=($(compgen -W "1 2 4 8 16 32 64" -- "$word")); return ;;
        --jobs | --sshlogin | --delivered | --refused) return ;;
        --language) COMPREPLY=($(compgen -W "python javascript rust c emacs-lisp" -- "$word")); return ;;
        --editor) COMPREPLY=($(compgen -W "neighbours tree identifiers positions" -- "$word")); return ;;
        --program | --html | --small | --svg | --junit) compopt -o filenames; mapfile -t COMPREPLY < <(compgen -f -- "$word"); return ;;
    esac
    case ${COMP_WORDS[0]##*/} in
        domepeeler-explain) options="--html --small --svg --language --delivered --refused --weak --editor --program --version --help" ;;
        domepeeler-judge-many) options="--json --failing --unequal --weak --editor --junit --jobs --sshlogin --program --version --help" ;;
        *)
            if ((COMP_CWORD == 1)); then
                COMPREPLY=($(compgen -W "verdict cert verify live --help --version" -- "$word"))
                return
            fi
            options="--help"
            [[ ${COMP_WORDS[1]} == verdict ]] && options="--workers --json --help"
            [[ ${COMP_WORDS[1]} == live ]] && options="--workers --help"
            ;;
    esac
    if [[ $word == -* ]]; then
        COMPREPLY=($(compgen -W "$options" -- "$word"))
    else
        compopt -o filenames
        mapfile -t COMPREPLY < <(compgen -f -- "$word")
    fi
}

complete -F _domepeeler domepeeler domepeeler-explain domepeeler-judge-many
