# Completion of the words of treadmarks for bash: `source share/completions/treadmarks.bash`.

# The options of a command.
_treadmarks_options() {
    case $1 in
    plain) echo "--nodes --steps" ;;
    sim) echo "--nodes --steps --collect --order --page --events --then --seed" ;;
    run) echo "--nodes --steps --collect --order --page" ;;
    trace) echo "--nodes --steps --collect --order --page --events --then --seed --threads --as --messages --from --to" ;;
    step) echo "--nodes --steps --collect --order --page --events --then --seed --threads --from --to" ;;
    explain) echo "--nodes --steps --collect --order --page --events --then --seed --threads" ;;
    why) echo "--nodes --steps --collect --order --page --events --then --seed --acts --act --and" ;;
    stats) echo "--nodes --steps --collect --order --page --events --then --seed --threads" ;;
    chart) echo "--nodes --steps --collect --order --page --events --then --seed --threads --acts --text --from --to --hide --source" ;;
    judge) echo "--nodes --pairs --all --memory --page --collect" ;;
    races) echo "--as --group --locations --sure --json --strict --score --why --witness" ;;
    explore) echo "--nodes --most --outcomes --outcome --memory --tries --ignore-races --ends --as --tell --page --collect" ;;
    esac
}

# The words that an option of a command takes, where they are listed; `FILE` stands for a file.
_treadmarks_values() {
    case $1,$2 in
    run,--order) echo "oldest newest twice" ;;
    trace,--as) echo "acts bytes events json rapid states" ;;
    races,--as) echo "std acts" ;;
    explore,--as) echo "events" ;;
    explore,--tell) echo "stuck trap end" ;;
    *,--order) echo "oldest newest twice random" ;;
    *,--page) echo "64 256" ;;
    *,--hide) echo "quiet" ;;
    judge,--memory) echo "exact" ;;
    *,--memory) echo "flat lazy exact" ;;
    *,--events | *,--acts | *,--score) echo FILE ;;
    *,--threads | *,--messages | *,--text | *,--source | *,--pairs | *,--all | *,--group | *,--locations | *,--sure | *,--json | *,--strict | *,--outcomes | *,--ignore-races | *,--ends) ;;
    *,--*) echo NUMBER ;;
    esac
}

_treadmarks() {
    local word=${COMP_WORDS[COMP_CWORD]} before=${COMP_WORDS[COMP_CWORD - 1]} command=${COMP_WORDS[1]} values
    local commands="check core lint plain sim run trace step explain why stats chart judge races explore help version"
    COMPREPLY=()
    if ((COMP_CWORD == 1)) || [[ $command == help ]]; then
        COMPREPLY=($(compgen -W "$commands" -- "$word"))
        return
    fi
    values=$(_treadmarks_values "$command" "$before")
    case $values in
    NUMBER) ;;
    FILE) COMPREPLY=($(compgen -f -- "$word")) ;;
    "")
        if [[ $word == -* ]]; then
            COMPREPLY=($(compgen -W "$(_treadmarks_options "$command") --help" -- "$word"))
        else
            COMPREPLY=($(compgen -f -- "$word"))
        fi
        ;;
    *) COMPREPLY=($(compgen -W "$values" -- "$word")) ;;
    esac
}
complete -o filenames -F _treadmarks treadmarks ./run
