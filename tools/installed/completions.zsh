#compdef domepeeler domepeeler-explain domepeeler-judge-many
# Completion of domepeeler and its tools in zsh.

_domepeeler() {
    case ${words[1]:t} in
        domepeeler-explain)
            _arguments '--html[write a page with the session drawn]:file:_files' \
                '--small[write a small trace with the same fault]:file:_files' \
                '--svg[write the picture of the cycle]:file:_files' \
                '*--delivered[lines that delivered wrote]:range:' \
                '*--refused[what a recorder says of calls that it refused]:words:' \
                '--language[of the recorder]:language:(python javascript rust c emacs-lisp)' \
                '--weak[let a trace pass where weak holds]' \
                '--editor[the kind of the editor]:kind:(neighbours tree identifiers positions)' \
                '--program[the program that judges]:program:_files' \
                '--version[show the version]' '--help[show the help]' '1:trace:_files'
            return ;;
        domepeeler-judge-many)
            _arguments '--json[one JSON object a trace]' '--failing[list only the traces that are not accepted]' \
                '--unequal[let traces fail whose replicas end unequal]' \
                '--weak[let traces pass where weak holds]' \
                '--editor[the kind of the editor]:kind:(neighbours tree identifiers positions)' \
                '--junit[write the verdicts as JUnit XML]:file:_files' '--jobs[how many at a time]:number:' \
                '--sshlogin[machines to judge on]:hosts:_hosts' '--program[the program that judges]:program:_files' \
                '--version[show the version]' '--help[show the help]' '*:folder:_files'
            return ;;
    esac
    if ((CURRENT == 2)); then
        local -a commands
        commands=('verdict:judge a trace' 'cert:make a certificate' 'verify:check a certificate' 'live:rehearse a live session')
        _describe command commands
        _arguments '--help[show the help]' '--version[show the version]'
        return
    fi
    case ${words[2]} in
        verdict) _arguments '--workers[how many share the search]:number:(1 2 4 8 16 32 64)' '--json[print JSON]' '--help[show the help]' \
            '2:trace:_files' ;;
        cert) _arguments '--help[show the help]' '2:trace:_files' ;;
        live) _arguments '--workers[how many share the search]:number:(1 2 4 8 16 32 64)' '--help[show the help]' '2:trace:_files' ;;
        verify) _arguments '--help[show the help]' '2:trace:_files' '3:certificate:_files' ;;
    esac
}

_domepeeler "$@"
