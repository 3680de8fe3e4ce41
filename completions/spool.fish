# Fish completion for spool(1): its tasks and their options, and the queues and jobs of the service.

# Prints the output of a task as JSON, or nothing if the service does not reply within a second.
function __spool_asked
    timeout 1 spool $argv --json 2>/dev/null
end

function __spool_queues
    __spool_asked queues | string match -a -r '"name": *"[^"]*"' | string replace -r '.*"(.*)"' '$1'
end

function __spool_jobs
    __spool_asked status | string match -a -r '"number": *[0-9]+' | string replace -r '.* |.*:' ''
end

set -l tasks submit status queues watch cancel hold release purge end queue devices check page say
set -l acts show add set accept reject enable disable

complete -c spool -f
complete -c spool -n "not __fish_seen_subcommand_from $tasks" -a "$tasks"
complete -c spool -n "not __fish_seen_subcommand_from $tasks" -l version -d 'Print the version'
complete -c spool -l socket -r -F -d 'The socket of the service'
complete -c spool -l help -d 'Print help'

complete -c spool -n '__fish_seen_subcommand_from submit' -F -a '(__spool_queues)'
complete -c spool -n '__fish_seen_subcommand_from submit' -l title -x -d 'The title of the job'
complete -c spool -n '__fish_seen_subcommand_from submit' -l user -x -a '(__fish_complete_users)' -d 'The owner of the job'
complete -c spool -n '__fish_seen_subcommand_from submit' -l copies -x -d 'The number of copies'
complete -c spool -n '__fish_seen_subcommand_from submit' -l priority -x -d 'The priority, from 1 to 100'
complete -c spool -n '__fish_seen_subcommand_from submit' -l pages -x -d 'Print only these pages'
complete -c spool -n '__fish_seen_subcommand_from submit' -l type -x -d 'The media type of the files'
complete -c spool -n '__fish_seen_subcommand_from submit' -s o -x -d 'Set an option'
complete -c spool -n '__fish_seen_subcommand_from submit' -l hold -d 'Hold the job until it is released'
complete -c spool -n '__fish_seen_subcommand_from submit' -l at -x -d 'Hold the job until then'
complete -c spool -n '__fish_seen_subcommand_from submit' -l by -x -d 'Cancel the job if it has not started by then'
complete -c spool -n '__fish_seen_subcommand_from submit' -l wait -d 'Wait until the job has ended'
complete -c spool -n '__fish_seen_subcommand_from submit' -l quiet -d 'Print nothing for an accepted job'

complete -c spool -n '__fish_seen_subcommand_from status' -s q -x -a '(__spool_queues)' -d 'Only the jobs of this queue'
complete -c spool -n '__fish_seen_subcommand_from submit status queues watch check show say' -l json -d 'Print JSON'
complete -c spool -n '__fish_seen_subcommand_from status' -l watch -d 'Show the jobs again whenever one changes'
complete -c spool -n '__fish_seen_subcommand_from say' -l until-end -d 'Wait until the service has ended'
complete -c spool -n '__fish_seen_subcommand_from status cancel hold release purge end' -a '(__spool_jobs)'
complete -c spool -n '__fish_seen_subcommand_from cancel' -l keep-printing -d 'Do not terminate filters and backends'
complete -c spool -n '__fish_seen_subcommand_from hold' -l until -x -d 'The end of the hold'
complete -c spool -n '__fish_seen_subcommand_from page' -s q -x -a '(__spool_queues)' -d 'Only this queue and its jobs'
complete -c spool -n '__fish_seen_subcommand_from page' -l user -x -a '(__fish_complete_users)' -d 'Only the jobs of this user'
complete -c spool -n '__fish_seen_subcommand_from page' -F -l follow -d 'Write the page every five seconds'

complete -c spool -n "__fish_seen_subcommand_from queue; and not __fish_seen_subcommand_from $acts" -a "$acts"
complete -c spool -n '__fish_seen_subcommand_from queue; and __fish_seen_subcommand_from show set accept reject enable disable' -a '(__spool_queues)'
complete -c spool -n '__fish_seen_subcommand_from queue; and __fish_seen_subcommand_from add' -l media -x -d 'The media type that the device takes'
complete -c spool -n '__fish_seen_subcommand_from queue; and __fish_seen_subcommand_from add' -l policy -x -a 'abort-job retry-job retry-current-job stop-printer'
complete -c spool -n '__fish_seen_subcommand_from queue; and __fish_seen_subcommand_from add' -l interval -x -d 'Seconds before another attempt'
complete -c spool -n '__fish_seen_subcommand_from queue; and __fish_seen_subcommand_from add' -l limit -x -d 'The number of attempts'
complete -c spool -n '__fish_seen_subcommand_from queue; and __fish_seen_subcommand_from set' -l info -x -d 'The description'
complete -c spool -n '__fish_seen_subcommand_from queue; and __fish_seen_subcommand_from set' -l location -x -d 'The location'
