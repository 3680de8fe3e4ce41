# Bash completion for spool(1): its tasks and their options, and the queues and jobs of the service.
# shellcheck shell=bash

# Prints the output of a task as JSON, or nothing if the service does not reply within a second. Uses the --socket of the command line.
_spool_asked() {
    local socket=() i
    for ((i = 1; i < COMP_CWORD; i++)); do
        if [[ ${COMP_WORDS[i]} == --socket ]]; then
            socket=(--socket "${COMP_WORDS[i + 1]}")
        fi
    done
    timeout 1 spool "$@" --json "${socket[@]}" 2> /dev/null
}

_spool_queues() {
    _spool_asked queues | grep -o '"name": *"[^"]*"' | sed 's/.*"\(.*\)"/\1/'
}

_spool_jobs() {
    _spool_asked status | grep -o '"number": *[0-9]*' | grep -o '[0-9]*$'
}

# Prints the number of words after the task that are neither options nor values of options.
_spool_plain_words() {
    local i count=0
    for ((i = $1; i < COMP_CWORD; i++)); do
        case ${COMP_WORDS[i]} in
        --title | --user | --copies | --priority | --pages | -o | --at | --by | --socket) i=$((i + 1)) ;;
        --until | --media | --policy | --interval | --limit | --info | --location | -q) i=$((i + 1)) ;;
        -*) ;;
        *) count=$((count + 1)) ;;
        esac
    done
    echo "$count"
}

_spool() {
    local current=${COMP_WORDS[COMP_CWORD]} before=${COMP_WORDS[COMP_CWORD - 1]}
    local task=${COMP_WORDS[1]} words='' first=2
    COMPREPLY=()
    case $before in
    --policy) words='abort-job retry-job retry-current-job stop-printer' ;;
    --media | --type) words='application/pdf application/postscript text/plain image/png image/jpeg' ;;
    -q) words=$(_spool_queues) ;;
    --socket)
        compopt -o filenames
        mapfile -t COMPREPLY < <(compgen -f -- "$current")
        return
        ;;
    --title | --user | --copies | --priority | --pages | -o | --at | --by | --until | --interval | --limit | --info | --location) return ;;
    esac
    if [[ -z $words && $COMP_CWORD -eq 1 ]]; then
        words='submit status queues watch cancel hold release purge end queue devices check page say --help --version'
    elif [[ -z $words && $task == queue && $COMP_CWORD -eq 2 ]]; then
        words='show add set accept reject enable disable'
    elif [[ -z $words ]]; then
        if [[ $task == queue ]]; then
            task="queue ${COMP_WORDS[2]}" first=3
        fi
        if [[ $current == -* ]]; then
            case $task in
            submit) words='--title --user --copies --priority --pages --type -o --hold --at --by --wait --quiet --json' ;;
            status) words='-q --json --watch' ;;
            queues | watch | check | 'queue show') words='--json' ;;
            say) words='--until-end --json' ;;
            cancel) words='--keep-printing' ;;
            hold) words='--until' ;;
            'queue add') words='--media --policy --interval --limit' ;;
            'queue set') words='--info --location' ;;
            page) words='-q --user --follow' ;;
            esac
            words+=' --socket --help'
        else
            case $task in
            submit | page)
                if [[ $task == page || $(_spool_plain_words $first) -gt 0 ]]; then
                    compopt -o filenames
                    mapfile -t COMPREPLY < <(compgen -f -- "$current")
                    return
                fi
                words=$(_spool_queues)
                ;;
            status | cancel | hold | release | purge | end) words=$(_spool_jobs) ;;
            'queue '*) words=$(_spool_queues) ;;
            esac
        fi
    fi
    mapfile -t COMPREPLY < <(compgen -W "$words" -- "$current")
}

complete -F _spool spool
