# Checks of `serve` and `connect` over real sockets: .ci/own reads this behind .ci/people.sh, with its `needs` and its folder. $ICE2 is the
# program where it is not bin/ice2.

# served CHECK: a check of .ci/served.py.
served() {
    mkdir -p "$work/served" && python3 .ci/served.py "$1" "$work/served"
}

# over NAME TOOL.. : COMMAND..: as needs, where a socket of this machine can be reached.
if served loopback 2>/dev/null; then
    over() { needs "$@"; }
else
    over() { echo "skipped: $1"; }
fi

over 'a forced stop over a socket' python3 : served session
over 'a target that runs where the line ends' python3 : served running_at_the_end
over 'no address but 127.0.0.1' python3 : served here_alone
over 'clients that say nothing or half a frame' python3 : served silent
over 'the most bytes of a served line' python3 : served junk
over 'clients that never read' python3 : served unread
over 'served images' python3 : served images
over 'words and ports of serve and connect' python3 : served words
over 'the shell at a server' python3 : served shell
over 'servers that do not answer' python3 : served partners

# client NAME: the sessions of docs/CLIENTS.md with this client.
client() {
    mkdir -p "$work/clients" && python3 .ci/clients.py "$1" "$work/clients"
}

over 'avrdude at a server' python3 avrdude avr-objcopy : client avrdude
over 'AVaRICE at a server' python3 avarice socat : client avarice
