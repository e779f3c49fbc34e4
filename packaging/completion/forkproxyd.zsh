#compdef forkproxyd forkproxyd-run
# Completion of forkproxyd and forkproxyd-run for zsh.
local -a serving
serving=(
    '--config[the configuration]:file:_files'
    '--own[where it receives, in place of the line own of the configuration]:address and port:'
    '--users[the users, where the configuration has a realm]:file:_files'
    '--journal[the file to which each call is written at its end]:file:_files'
    '--store[the file in which what telephones register is kept]:file:_files'
    '--secret[64 hexadecimal digits, one file for all proxies behind a front]:file:_files'
    '--most-calls[how many calls are kept at most]:number:'
    '--most-bindings[how many contacts may be bound to all users]:number:'
    '--workers[how many threads receive and handle datagrams]:number:'
    '--record-route[stay on the path of dialogs, by this address or the own one]::address and port:'
    '--own-port[count the own address as the domain with the own port alone]'
    '--most-per-source[how many datagrams one address may send at once, and each second]:number:'
    '--no-tcp[serve over UDP alone]'
    '--most-connections[how many connections there are at most]:number:'
    '--most-connections-per-source[how many connections one address may have opened]:number:'
    '--idle-seconds[for how many seconds a connection may be silent]:seconds:'
    '--metrics[where the counters are scraped]:address and port:'
)
if [[ $service == forkproxyd-run ]]; then
    _arguments '1:control socket:_files' $serving
elif [[ ${words[2]} == tell && $CURRENT -gt 2 ]]; then
    local -a commands
    commands=(
        'stop:stop, once no call is open, after 30 seconds or the given ones at the latest'
        'reload:read the configuration anew'
        'stats:write the counters'
        'calls:tell of the open calls, from a number on'
        'call:tell of one call'
        'bindings:tell of the contacts that are bound to users, or to one'
        'forget:take away the contacts that are bound to a user'
        'refused:tell of the last hundred requests that were refused'
    )
    case $CURRENT in
        3) _files ;;
        4) _describe command commands ;;
        5)
            case ${words[4]} in
                stop) _message seconds ;;
                calls | call) _message number ;;
                bindings | forget) _message user ;;
            esac
            ;;
    esac
elif [[ ${words[2]} == user && $CURRENT -gt 2 ]]; then
    case $CURRENT in
        3) _message 'name of the user' ;;
        4) _message 'realm of the configuration' ;;
    esac
else
    _arguments '1:command:(tell user)' $serving \
        '--control[the control socket]:file:_files' \
        '(--config --control)--check-config[say whether a configuration is well-formed]:file:_files' \
        '(- *)--help[print help]' \
        '(- *)--version[print the version]'
fi
