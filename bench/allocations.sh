#!/bin/sh
# allocations.sh [FIRST]: refuses each allocation of a call of the program in turn, the FIRST-th (else the first) and then the next, until
# one is asked for that the call does not make. Each run builds the tests of ice_conform anew, so the whole takes long.
#
# It prints a line for each allocation. The status is 1 where one is not told as want of memory, or where it is and something was read,
# sent or written nevertheless.

cd "$(dirname "$0")/../crates/ice_conform" || exit 1
log=$(mktemp) || exit 1
trap 'rm -f "$log"' EXIT
number=${1:-1}

# passes TEST: the last run passed this test.
passes() {
    grep -q "^test tests::memory::$1 \.\.\. ok$" "$log"
}

while :; do
    rt try --test --fail-alloc "$number" >"$log" 2>&1
    if ! passes a_refused_allocation_is_told_and_changes_nothing; then
        echo "FAILED: allocation $number"
        cat "$log"
        exit 1
    fi
    if passes a_call_finds_its_memory; then
        echo "ok: the call makes fewer than $number allocations"
        exit 0
    fi
    echo "ok: allocation $number"
    number=$((number + 1))
done
