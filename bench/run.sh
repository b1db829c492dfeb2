#!/bin/sh
# Counts the host instructions of one step: in the bare loop of `bench_core`, and in a run of a job (`Job::advance`) on the same images.
# `bench/run.sh [STEPS]`. Build it first: `rt run` in crates/bench_core. Each figure is the difference of two calls, one of which makes
# twice as much, so that reading the image does not count. Without valgrind it prints `skipped`.
cd "$(dirname "$0")" || exit 1
program=${BENCH_CORE:-../crates/bench_core/out/bench_core}
steps=${1:-1000000}
command -v valgrind >/dev/null || { echo "skipped: valgrind"; exit 0; }

# counted IMAGE NUMBER [FORM]: the instructions of a call, and the steps that it made.
counted() {
    said=$(valgrind --tool=callgrind --callgrind-out-file=/dev/null "$program" "$@" 2>&1)
    echo "$said" | awk '/Collected/ { i = $4 } /^steps/ { s = $2 } END { print i, s }'
}

# a_step IMAGE NUMBER [FORM]: the instructions of one step.
a_step() {
    image=$1 number=$2
    shift 2
    echo "$(counted "$image" "$number" "$@") $(counted "$image" $((2 * number)) "$@")" | awk '{ printf "%.2f", ($3 - $1) / ($4 - $2) }'
}

for name in compute memory timer; do
    bare=$(a_step $name.bin "$steps")
    run=$(a_step $name.bin "$steps" advance)
    echo "$name bare $bare run $run ratio $(echo "$bare $run" | awk '{ printf "%.3f", $2 / $1 }')"
done
