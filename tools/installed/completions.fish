# Completion of domepeeler and its tools in fish.

set -l commands verdict cert verify live
set -l before "not __fish_seen_subcommand_from $commands"
complete -c domepeeler -n $before -f -a verdict -d 'judge a trace'
complete -c domepeeler -n $before -f -a cert -d 'make a certificate'
complete -c domepeeler -n $before -f -a verify -d 'check a certificate'
complete -c domepeeler -n $before -f -a live -d 'rehearse a live session'
complete -c domepeeler -n $before -l version -d 'show the version'
complete -c domepeeler -l help -d 'show the help'
complete -c domepeeler -n '__fish_seen_subcommand_from verdict live' -l workers -x -a '1 2 4 8 16 32 64' -d 'how many share the search'
complete -c domepeeler -n '__fish_seen_subcommand_from verdict' -l json -d 'print JSON'

complete -c domepeeler-explain -l html -r -d 'write a page with the session drawn'
complete -c domepeeler-explain -l small -r -d 'write a small trace with the same fault'
complete -c domepeeler-explain -l svg -r -d 'write the picture of the cycle'
complete -c domepeeler-explain -l delivered -x -d 'lines that delivered wrote'
complete -c domepeeler-explain -l refused -x -d 'what a recorder says of calls that it refused'
complete -c domepeeler-explain -l language -x -a 'python javascript rust c emacs-lisp' -d 'of the recorder'
complete -c domepeeler-explain -l weak -d 'let a trace pass where weak holds'
complete -c domepeeler-explain -l editor -x -a 'neighbours tree identifiers positions' -d 'the kind of the editor'
complete -c domepeeler-explain -l program -r -d 'the program that judges'

complete -c domepeeler-judge-many -l json -d 'one JSON object a trace'
complete -c domepeeler-judge-many -l failing -d 'list only the traces that are not accepted'
complete -c domepeeler-judge-many -l unequal -d 'let traces fail whose replicas end unequal'
complete -c domepeeler-judge-many -l weak -d 'let traces pass where weak holds'
complete -c domepeeler-judge-many -l editor -x -a 'neighbours tree identifiers positions' -d 'the kind of the editor'
complete -c domepeeler-judge-many -l junit -r -d 'write the verdicts as JUnit XML'
complete -c domepeeler-judge-many -l jobs -x -d 'how many at a time'
complete -c domepeeler-judge-many -l sshlogin -x -d 'machines to judge on'
complete -c domepeeler-judge-many -l program -r -d 'the program that judges'

for tool in domepeeler-explain domepeeler-judge-many
    complete -c $tool -l version -d 'show the version'
    complete -c $tool -l help -d 'show the help'
end
