# Completion of ctxbound's command words for fish.
set -l commands explore unbounded replay explain check suite verify prefixes join help
complete -c ctxbound -f
complete -c ctxbound -n "not __fish_seen_subcommand_from $commands" -a explore -d 'Search up to a bound on preemptions'
complete -c ctxbound -n "not __fish_seen_subcommand_from $commands" -a unbounded -d 'Search without a bound'
complete -c ctxbound -n "not __fish_seen_subcommand_from $commands" -a replay -d 'Run one schedule'
complete -c ctxbound -n "not __fish_seen_subcommand_from $commands" -a explain -d 'Say why a schedule ends as it does'
complete -c ctxbound -n "not __fish_seen_subcommand_from $commands" -a check -d 'Say what is wrong or odd about guests'
complete -c ctxbound -n "not __fish_seen_subcommand_from $commands" -a suite -d 'Search many guests'
complete -c ctxbound -n "not __fish_seen_subcommand_from $commands" -a verify -d 'Say whether a guest is right'
complete -c ctxbound -n "not __fish_seen_subcommand_from $commands" -a prefixes -d 'List beginnings of schedules that cover them all'
complete -c ctxbound -n "not __fish_seen_subcommand_from $commands" -a join -d 'Join what was found under prefixes'
complete -c ctxbound -n "not __fish_seen_subcommand_from $commands" -a help -d 'Print the help of a command'
complete -c ctxbound -n "not __fish_seen_subcommand_from $commands" -l version -d 'Print the version'
complete -c ctxbound -l help -d 'Print the help'
# After the one guest that most commands take comes a schedule or nothing.
function __ctxbound_takes_a_guest
    set -l words (commandline -opc)
    set -l files 0
    for at in (seq 3 (count $words))
        if not string match -q -- '-?*' $words[$at]; and not contains -- $words[(math $at - 1)] --bound --workers --limit --steps --width --at-least --under
            set files (math $files + 1)
        end
    end
    test $files -eq 0
end
complete -c ctxbound -n '__fish_seen_subcommand_from check suite' -k -a '(__fish_complete_suffix .guest)'
complete -c ctxbound -n '__fish_seen_subcommand_from explore unbounded replay explain verify prefixes join; and __ctxbound_takes_a_guest' -k -a '(__fish_complete_suffix .guest)'
complete -c ctxbound -n '__fish_seen_subcommand_from explore explain suite join' -l bound -x -d 'The most preemptions'
complete -c ctxbound -n '__fish_seen_subcommand_from explore unbounded explain suite verify' -l workers -x -d 'How many threads work'
complete -c ctxbound -n '__fish_seen_subcommand_from explore unbounded explain check suite verify' -l limit -x -d 'Cut the search short after this number of schedules'
complete -c ctxbound -n '__fish_seen_subcommand_from explore unbounded explain' -l quick -d 'Leave out what comes after a bad schedule'
complete -c ctxbound -n '__fish_seen_subcommand_from explore unbounded' -l symmetry -d 'Let of equal threads one step alone'
complete -c ctxbound -n '__fish_seen_subcommand_from explore unbounded' -l trace -d 'Print the trace of the schedule found'
complete -c ctxbound -n '__fish_seen_subcommand_from explore unbounded explain suite verify' -l progress -d 'Tell how far the search is'
complete -c ctxbound -n '__fish_seen_subcommand_from explain check suite' -l json -d 'Print JSON'
complete -c ctxbound -n '__fish_seen_subcommand_from explain' -l unbounded -d 'Search without a bound'
complete -c ctxbound -n '__fish_seen_subcommand_from prefixes' -l unbounded -d 'List those that a search without a bound enters'
complete -c ctxbound -n '__fish_seen_subcommand_from join; and not __ctxbound_takes_a_guest' -F
complete -c ctxbound -n '__fish_seen_subcommand_from join' -l unbounded -d 'Join parts of a search without a bound'
complete -c ctxbound -n '__fish_seen_subcommand_from explore unbounded' -l under -x -d 'Run the schedules that begin with this one'
complete -c ctxbound -n '__fish_seen_subcommand_from prefixes' -l at-least -x -d 'List at least N, or all'
complete -c ctxbound -n '__fish_seen_subcommand_from explain' -l steps -x -d 'Show each step of at most this number'
complete -c ctxbound -n '__fish_seen_subcommand_from explain' -l all -d 'Show each step'
complete -c ctxbound -n '__fish_seen_subcommand_from explain' -l width -x -d 'The columns of a line'
complete -c ctxbound -n '__fish_seen_subcommand_from explain' -l html -d 'Print a page'
complete -c ctxbound -n '__fish_seen_subcommand_from check' -l strict -d 'Status 1 where there is a warning'
complete -c ctxbound -n '__fish_seen_subcommand_from check' -l deep -d 'Go through schedules, too'
complete -c ctxbound -n '__fish_seen_subcommand_from check' -l remarks -d 'Tell what need not be wrong, too'
complete -c ctxbound -n '__fish_seen_subcommand_from check' -l short -d 'Print a line each'
