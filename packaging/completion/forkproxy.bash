# Completion of forkproxy for bash; of the script ./forkproxy of a clone, too, which also proves and tests.
_forkproxy() {
    local word=${COMP_WORDS[COMP_CWORD]} commands="replay drive check serve"
    COMPREPLY=()
    [[ ! -e ${1%/*}/crates.txt ]] || commands+=" prove test"
    case $COMP_CWORD:${COMP_WORDS[1]} in
        1:*) mapfile -t COMPREPLY < <(compgen -W "$commands" -- "$word") ;;
        2:prove) mapfile -t COMPREPLY < <(compgen -W "forkproxyd" -- "$word") ;;
    esac
}
complete -F _forkproxy forkproxy
