# Completion of xemdulba for fish.

set -l verbs check run round list events help

complete -c xemdulba -n "not __fish_seen_subcommand_from $verbs" -f
complete -c xemdulba -n "not __fish_seen_subcommand_from $verbs" -a check -d 'the verdict on each book'
complete -c xemdulba -n "not __fish_seen_subcommand_from $verbs" -a run -d 'what the events do'
complete -c xemdulba -n "not __fish_seen_subcommand_from $verbs" -a round -d 'what the jobs do when they take turns'
complete -c xemdulba -n "not __fish_seen_subcommand_from $verbs" -a list -d 'the records with their offsets'
complete -c xemdulba -n "not __fish_seen_subcommand_from $verbs" -a events -d 'the events with their offsets'
complete -c xemdulba -n "not __fish_seen_subcommand_from $verbs" -a help -d 'what a verb does'
complete -c xemdulba -n "not __fish_seen_subcommand_from $verbs" -s V -l version -d 'its version, and the kit that proved it'
complete -c xemdulba -s h -l help -d 'what the command or the verb does'
complete -c xemdulba -n "__fish_seen_subcommand_from $verbs" -l json -d 'one object to a line'
complete -c xemdulba -n '__fish_seen_subcommand_from check run round list events' -F
complete -c xemdulba -n '__fish_seen_subcommand_from check run round list events' -l hex -d 'the files are hexadecimal text'
complete -c xemdulba -n '__fish_seen_subcommand_from check run round list events' -l raw -d 'the files are bytes'
complete -c xemdulba -n '__fish_seen_subcommand_from run round' -l launch -x -a 'bound 0 1 2 3 4 5 6 7 8 9 10 11 12 13 14 15' -d 'the label that job 0 begins at'
complete -c xemdulba -n '__fish_seen_subcommand_from list events' -l bytes -d 'the bytes of each record'
complete -c xemdulba -n '__fish_seen_subcommand_from help' -f -a "$verbs"
