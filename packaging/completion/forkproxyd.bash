# Completion of forkproxyd and forkproxyd-run for bash.
_forkproxyd() {
    local word=${COMP_WORDS[COMP_CWORD]} before=${COMP_WORDS[COMP_CWORD - 1]} at=$COMP_CWORD
    local options="--config --own --users --control --journal --store --secret --most-calls --most-bindings --workers --record-route --own-port --most-per-source --metrics --no-tcp --most-connections --most-connections-per-source --idle-seconds"
    COMPREPLY=()
    case $before in
        --config | --users | --control | --journal | --store | --secret | --check-config) at=file ;;
        --own | --most-calls | --most-bindings | --workers | --most-per-source | --metrics | --most-connections | --most-connections-per-source | --idle-seconds) return ;;
    esac
    if [[ ${1##*/} == forkproxyd-run ]]; then
        [[ $at != 1 ]] || at=file
        options=${options/--control /}
    elif [[ $at != file && ${COMP_WORDS[1]} == tell ]]; then
        case $at in
            1) ;;
            2) at=file ;;
            3)
                mapfile -t COMPREPLY < <(compgen -W "stop reload stats calls call bindings forget refused" -- "$word")
                return
                ;;
            *) return ;;
        esac
    elif [[ $at != file && $at != 1 && ${COMP_WORDS[1]} == user ]]; then
        return
    elif [[ $at != file && $at != 1 && ${COMP_WORDS[1]} == --check-config ]]; then
        options="--own --users --no-tcp"
    fi
    if [[ $at == file ]]; then
        compopt -o filenames 2> /dev/null
        mapfile -t COMPREPLY < <(compgen -f -- "$word")
    elif [[ $at == 1 ]]; then
        mapfile -t COMPREPLY < <(compgen -W "tell user $options --check-config --help --version" -- "$word")
    else
        mapfile -t COMPREPLY < <(compgen -W "$options" -- "$word")
    fi
}
complete -F _forkproxyd forkproxyd forkproxyd-run
