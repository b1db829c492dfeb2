#!/bin/sh
# Compares the decoder with the disassembler of binutils for AVR, over all 65,536 first words: which words have an instruction,
# and how long it is. The words that only larger parts have an instruction for are undefined here, and listed below.
# Run it after `rt ci`, from any folder. Without avr-objdump it prints `skipped: avr-objdump`.
set -eu

if ! command -v avr-objdump >/dev/null 2>&1; then
    echo 'skipped: avr-objdump'
    exit 0
fi

top=$(cd "$(dirname "$0")/.." && pwd)
work=$(mktemp -d)
trap 'rm -rf "$work"' EXIT

# Each word stands in front of two zero words, so that the next one is read afresh whatever its length.
python3 - "$work" <<'END'
import struct, sys
with open(sys.argv[1] + '/code.bin', 'wb') as code, open(sys.argv[1] + '/words.txt', 'w') as words:
    for word in range(65536):
        code.write(struct.pack('<HHH', word, 0, 0))
        words.write(f'{word:04x}\n')
END

avr-objdump -D -z -b binary -m avr5 "$work/code.bin" >"$work/disassembled.txt"
# `rt ci` leaves the built program there; else it is proved and built first.
program=$top/crates/words_of_code/out/words_of_code
if [ ! -x "$program" ] && ! (cd "$top/crates/words_of_code" && rt run </dev/null >"$work/run.log" 2>&1); then
    cat "$work/run.log" >&2
    exit 1
fi
"$program" <"$work/words.txt" >"$work/decoded.txt"

python3 - "$work" <<'END'
import re, sys

# The mnemonics of larger parts, with the first words that they take.
LARGER = {
    'eijmp': lambda word: word == 0x9419,
    'eicall': lambda word: word == 0x9519,
    'des': lambda word: word & 0xff0f == 0x940b,
    'elpm': lambda word: word == 0x95d8 or word & 0xfe0e == 0x9006,
    'spm': lambda word: word == 0x95f8,
    'xch': lambda word: word & 0xfe0f == 0x9204,
    'las': lambda word: word & 0xfe0f == 0x9205,
    'lac': lambda word: word & 0xfe0f == 0x9206,
    'lat': lambda word: word & 0xfe0f == 0x9207,
}

disassembled = {}
for line in open(sys.argv[1] + '/disassembled.txt'):
    found = re.match(r'\s*([0-9a-f]+):\t((?:[0-9a-f]{2} )+)\s*\t(\S+)', line)
    if found and int(found[1], 16) % 6 == 0:
        disassembled[int(found[1], 16) // 6] = (len(found[2].split()) // 2, found[3])

decoded = {}
for line in open(sys.argv[1] + '/decoded.txt'):
    found = re.fullmatch(r'([0-9a-f]{4}) ([12]) (\S+).*\n', line)
    if found:
        decoded[int(found[1], 16)] = (int(found[2]), found[3])

differences = larger = 0
for word in range(65536):
    length, name = disassembled[word]
    our_length, our_name = decoded[word]
    if our_name == '.word' and name in LARGER and LARGER[name](word):
        larger += 1
    elif (our_name == '.word') != (name == '.word') or our_length != length:
        differences += 1
        print(f'{word:04x}: {our_name}, {our_length} words; disassembler {name}, {length} words')

print(f'compared 65536 words: {differences} differences, {larger} words of larger parts')
sys.exit(1 if differences else 0)
END
