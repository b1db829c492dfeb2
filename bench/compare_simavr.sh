#!/bin/sh
# Runs the example that ends at a BREAK on the core and on simavr, and compares the output writes: I/O address and byte of each.
# Their cycles differ: simavr takes an interrupt in no cycles. Run it after `rt ci`, from any folder, or name another build of
# `bench_core` in BENCH_CORE. Then runs the example for the ATmega32 on simavr's, and compares its first output writes, the second
# tone among them, with those that its script tells: the debug session on it is made of the same counts. Where gcc, libsimavr or
# python3 is missing it prints `skipped`.
set -eu

top=$(cd "$(dirname "$0")/.." && pwd)
work=$(mktemp -d)
trap 'rm -rf "$work"' EXIT

if ! command -v gcc >/dev/null 2>&1 || ! gcc -O2 -o "$work/simavr_host" "$top/bench/simavr_host.c" -lsimavr 2>/dev/null; then
    echo 'skipped: gcc or libsimavr'
    exit 0
fi

# `rt ci` leaves the built program there; else it is proved and built first.
program=${BENCH_CORE:-$top/crates/bench_core/out/bench_core}
if [ ! -x "$program" ] && ! (cd "$top/crates/bench_core" && rt run -- "$top/examples/clock.bin" 1) >"$work/run.log" 2>&1 </dev/null; then
    cat "$work/run.log" >&2
    exit 1
fi

# The lines of writes end with one that tells the cycles; `bench_core` writes the cycle of each write before it.
"$work/simavr_host" "$top/examples/clock.bin" 1000000 writes | sed '/^cycles/,$d' >"$work/simavr"
"$program" "$top/examples/clock.bin" 1000000 writes | sed '/^cycles/,$d; s/^[0-9]* //' >"$work/core"
cmp "$work/simavr" "$work/core"
echo "compared $(wc -l <"$work/core") output writes: no difference"

if ! command -v python3 >/dev/null 2>&1; then
    echo 'skipped: python3'
    exit 0
fi
count=25000
"$work/simavr_host" "$top/examples/tone.hex" 2200000 writes m32 | head -n "$count" >"$work/simavr"
python3 "$top/examples/tone_writes.py" "$count" | sed 's/^[0-9]* //' >"$work/told"
cmp "$work/simavr" "$work/told"
echo "compared $(wc -l <"$work/told") output writes of the ATmega32: no difference"
