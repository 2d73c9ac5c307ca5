# Completions of oscore for fish: put this file into a folder of $fish_complete_path.

# Whether the call is one of these.
function __oscore_call
    set -l words (commandline -opc)
    contains -- "$words[2]" $argv
end

# Whether none of these words is given, alone or before a =. An option whose value is at the cursor isn't given yet.
function __oscore_without
    set -l words (commandline -opc)
    if string match -qr -- '^--[a-z-]+$' "$words[-1]"; and not contains -- "$words[-1]" --restarted --registers --proxy --tables --first --help
        set -e words[-1]
    end
    not string match -qr -- '^('(string join '|' -- $argv)')(=|$)' $words
end

# Whether this isn't the role that is given.
function __oscore_no
    not string match -qr -- "--role[ =]$argv( |\$)" (commandline -opc | string join ' ')
end

# Whether this is a peer: that role is given, or a record, which is a peer's.
function __oscore_peer
    not __oscore_no peer; or not __oscore_without --record
end

set -l first 'test (count (commandline -opc)) -eq 1'
set -l context '__oscore_call derive open protect run; and __oscore_without'

complete -c oscore -f
complete -c oscore -n "$first" -a derive -d 'Print the keys and the Common IV of a context'
complete -c oscore -n "$first" -a open -d 'Open a protected request or response, and print its parts'
complete -c oscore -n "$first" -a protect -d 'Protect a plain request or response, and print it in hex'
complete -c oscore -n "$first" -a explain -d 'Print what a datagram shows without a key'
complete -c oscore -n "$first" -a run -d 'Run a server, a client or a peer over the events on standard input'
complete -c oscore -n "$first" -a help -d 'Print help'
complete -c oscore -n "$first" -s V -l version -d 'Print the version'
complete -c oscore -n '__oscore_without -h --help; and not __oscore_call help' -s h -l help -d 'Print help'
complete -c oscore -n '__oscore_call help; and test (count (commandline -opc)) -eq 2' -a 'derive open protect explain run'

complete -c oscore -n "$context --secret" -l secret -x -d 'The Master Secret, 1 to 64 bytes of hex'
complete -c oscore -n "$context --salt" -l salt -x -d 'The Master Salt, 0 to 64 bytes of hex'
complete -c oscore -n "$context --sender" -l sender -x -d 'This end\'s identifier, 0 to 7 bytes of hex'
complete -c oscore -n "$context --recipient" -l recipient -x -d 'The other end\'s identifier, 0 to 7 bytes of hex'
complete -c oscore -n "$context --id-context" -l id-context -x -d 'The ID Context, 1 to 32 bytes of hex'
complete -c oscore -n '__oscore_call derive open protect run' -l allow -x -a 'blocks observe' -d 'What may also pass'
complete -c oscore -n '__oscore_call derive open protect run; and __oscore_without --tables' -l tables -d 'Use the keys by tables'

complete -c oscore -n '__oscore_call open protect; and __oscore_without --request --proxy' -l request -x -d 'Of a response: the number of its request'
complete -c oscore -n '__oscore_call open protect; and __oscore_without --registers --proxy' -l registers -d 'Its request registers an observation'
complete -c oscore -n '__oscore_call protect; and __oscore_without --sequence' -l sequence -x -d 'The Sender Sequence Number to use'
complete -c oscore -n '__oscore_call protect; and __oscore_without --proxy --request --registers' -l proxy -d 'Split its Proxy-Uri, and ask a proxy by Proxy-Scheme'

complete -c oscore -n '__oscore_call run; and __oscore_without --role' -l role -x -a 'server client peer' -d 'What this end is'
complete -c oscore -n '__oscore_call run; and __oscore_without --follow' -l follow -d 'Print each entry as soon as its line is read'
complete -c oscore -n '__oscore_call run; and __oscore_without --sequence --numbers; and not __oscore_peer' -l sequence -x -d 'The next Sender Sequence Number'
complete -c oscore -n '__oscore_call run; and __oscore_without --numbers --sequence --restarted; and not __oscore_peer' -l numbers -r -F -d 'The file that keeps the Sender Sequence Numbers'
complete -c oscore -n '__oscore_call run; and __oscore_without --restarted --numbers --life; and __oscore_no client; and not __oscore_peer' -l restarted -d 'Requests may have come to it in an earlier life'
complete -c oscore -n '__oscore_call run; and __oscore_without --record --sequence --restarted --numbers; and __oscore_no server; and __oscore_no client' -l record -r -F -d 'The record of a peer: what it sent and received'
complete -c oscore -n '__oscore_call run; and __oscore_without --first; and not __oscore_without --record' -l first -d 'Make the record, of a peer that was never used'
complete -c oscore -n '__oscore_call run; and __oscore_without --ahead; and not __oscore_without --record' -l ahead -x -d 'How many received numbers a peer keeps ahead'
complete -c oscore -n '__oscore_call run; and __oscore_without --window --life; and __oscore_no client; and not __oscore_peer' -l window -x -a '1 32 64' -d 'The places of the replay window'
complete -c oscore -n '__oscore_call run; and __oscore_without --life --restarted --window; and __oscore_no server; and not __oscore_peer' -l life -x -d 'For how many ms a request is pending'
complete -c oscore -n '__oscore_call run; and __oscore_without --window; and __oscore_peer' -l window -x -a '1 32 64' -d 'The places of the replay window'
complete -c oscore -n '__oscore_call run; and __oscore_without --life; and __oscore_peer' -l life -x -d 'For how many ms a request is pending'
