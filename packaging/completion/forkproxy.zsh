#compdef forkproxy
# Completion of forkproxy for zsh; of the script ./forkproxy of a clone, too, which also proves and tests.
local -a commands
commands=(
    'replay:say what the proxy does at each step of a script'
    'drive:the same with workers, a thread for each'
    'check:say whether a listing is right'
    'serve:serve on a socket for so many turns'
)
[[ ! -e ${words[1]:h}/crates.txt ]] || commands+=('prove:prove and build the program' 'test:run all tests with no proof')
if (( CURRENT == 2 )); then
    _describe command commands
elif (( CURRENT == 3 )) && [[ ${words[2]} == serve ]]; then
    _message 'number of turns, 1 to 1000000'
elif (( CURRENT == 3 )) && [[ ${words[2]} == prove ]]; then
    compadd forkproxyd
fi
