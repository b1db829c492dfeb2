#!/usr/bin/env bash
# What the completion offers, in the folder of the examples: the words of a call so far, `:`, and what may stand in place of the last one.

cd "$(dirname "$0")/../examples" || exit 1
# shellcheck source=completion/ice2
. ../completion/ice2 || exit 1
failed=0

# offers WORD.. : OFFER..: behind these words stands one of these, in any order.
offers() {
    local words=()
    while [ "$1" != : ]; do
        words+=("$1")
        shift
    done
    shift
    COMP_WORDS=("${words[@]}")
    COMP_CWORD=$((${#words[@]} - 1))
    _ice2
    if [ "$(printf '%s\n' "${COMPREPLY[@]}" | sort)" != "$(printf '%s\n' "$@" | sort)" ]; then
        echo "${words[*]}: ${COMPREPLY[*]}" >&2
        failed=1
    fi
}

offers ice2 '' : replay script frames gen list asm verify serve connect --help --version
offers ice2 re : replay
offers ice2 script bl : blink.bin blink.hex
offers ice2 list su : suite
offers ice2 replay suite/stack : suite/stack.hex suite/stack32.hex
offers ice2 script blink.hex 100 m : m16 m32
offers ice2 list blink.hex m3 : m32
offers ice2 asm '' : m16 m32
offers ice2 verify bl : blink.bin blink.hex
offers ice2 verify blink.hex m3 : m32
offers ice2 serve 4711 bl : blink.bin blink.hex
offers ice2 serve 4711 blink.hex m3 : m32
offers ice2 serve '' :
offers ice2 connect '' :
offers ice2 frames '' :
offers ice2 gen 1 '' :
exit "$failed"
