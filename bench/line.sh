#!/bin/sh
# The speed of the line: the built `ice2` on long lines, beside a plain read-and-write loop of the same bytes in the
# same run. Prints seconds, the ratio, and the most memory that `ice2` held; and the same of the listing of these bytes, which
# goes to /dev/null. Takes python3 and /usr/bin/time.
# With an earlier build of `ice2` as its word it prints then the CPU seconds of both, the least of five runs in turn.

cd "$(dirname "$0")/.." || exit 1
for tool in python3 /usr/bin/time; do
    command -v "$tool" >/dev/null || { echo "skipped: $tool"; exit 0; }
done
work=$(mktemp -d) || exit 1
trap 'rm -rf "$work"' EXIT

python3 - "$work" <<'P'
import sys
folder = sys.argv[1]
sys.path.insert(0, 'examples')
from frames import frame


def descriptor(size):
    return frame(0, b'\x0c' + bytes(size))


sign_on = bytes.fromhex('1b0000010000000e01f397')
lines = {
    'zeros': bytes(60_000_000),
    'sign-on frames': sign_on * 1_000_000,
    'largest headers': bytes.fromhex('1b00000a1000000e') * 250_000,
    'half descriptors': descriptor(2052) * 10_000,
    'largest descriptors': descriptor(4105) * 10_000,
}
for name, line in lines.items():
    open(f'{folder}/{name}', 'wb').write(line)
P

bin/ice2 --version >/dev/null || exit 1
(cd crates/bench_copy && rt run </dev/null >/dev/null 2>&1) || exit 1

# seconds FILE COMMAND..: the elapsed seconds and the kilobytes held of a command that reads the file.
seconds() {
    input=$1
    shift
    /usr/bin/time -f '%e %M' -o "$work/time" "$@" <"$input" >/dev/null 2>"$work/notes"
    cat "$work/time"
}

for name in zeros 'sign-on frames' 'largest headers' 'half descriptors' 'largest descriptors'; do
    plain=$(seconds "$work/$name" crates/bench_copy/out/bench_copy)
    line=$(seconds "$work/$name" crates/ice2/out/ice2 replay examples/blink.bin 100)
    size=$(stat -c %s "$work/$name")
    echo "$name $size $plain $line $(cat "$work/notes")" | python3 -c '
import sys
*words, _cycles, c, _steps, s, _writes, w, _dropped, d = sys.stdin.read().split()
size, plain, _, line, held = words[-5:]
name = " ".join(words[:-5])
print(f"{name}: {int(size)/float(line)/1e6:.1f} MB/s, {float(line)/max(float(plain), 0.01):.0f} times the plain loop ({plain} s), {int(held)/1024:.1f} MB held, dropped {d}")'
    listed=$(seconds "$work/$name" crates/ice2/out/ice2 frames)
    echo "$name $size $plain $listed" | python3 -c '
import sys
*words, size, plain, _, line, held = sys.stdin.read().split()
name = " ".join(words)
print(f"{name}, listed: {int(size)/float(line)/1e6:.1f} MB/s, {float(line)/max(float(plain), 0.01):.0f} times the plain loop, {int(held)/1024:.1f} MB held")'
done

[ $# -eq 0 ] || python3 - "$work" "$1" crates/ice2/out/ice2 <<'P'
import os, subprocess, sys
folder, *builds = sys.argv[1:]


def seconds(build, path):
    with open(path, 'rb') as line:
        child = subprocess.Popen([build, 'replay', 'examples/blink.bin', '100'], stdin=line,
                                 stdout=subprocess.DEVNULL, stderr=subprocess.DEVNULL)
        used = os.wait4(child.pid, 0)[2]
    return used.ru_utime + used.ru_stime


for name in ('zeros', 'sign-on frames', 'largest headers', 'half descriptors', 'largest descriptors'):
    runs = [[seconds(build, f'{folder}/{name}') for build in builds] for _ in range(5)]
    former, now = (min(run[k] for run in runs) for k in range(2))
    print(f'{name}: {now:.3f} CPU s, {now / former:.2f} times the earlier build ({former:.3f} s)')
P
exit 0
