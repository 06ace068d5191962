#!/usr/bin/env bash
# Turns at the history lock, beside a C++ program that does the same work under std::mutex: bench/turns.sh [ENTRIES]
# It wants rt and Debian's g++. Where the program has to be built, that takes some minutes, most of them for proofs.
#
# With 1, 2, 4 and 16 threads, each thread adds pairs to one list, a pair a turn, until the list is full. Each time is the
# median of seven, and the two programs run in turn. It fails where the lock takes more than 1.25 times the mutex's time
# at 1, 4 or 16 threads, where a list is not full, or where some thread had no turn.
set -eu
here="$(cd "$(dirname "${BASH_SOURCE[0]}")" && pwd)"
. "$here/beside.sh"
entries="${1:-8000000}"

build_yardstick turns
find_program bp_bench_desk

echo "$entries entries, medians of 7"
printf '%8s %12s %12s %8s %24s\n' threads 'lock ms' 'mutex ms' times 'fewest turns of a thread'
for threads in 1 2 4 16; do
    run_in_turn 7 "$program turns $threads $entries" "$work/turns $threads $entries"
    lock="$(figure 1 turns)" mutex="$(figure 2 turns)" fewest="$(least_figure 1 fewest)"
    printf '%8d %12d %12d %8s %24d\n' "$threads" $((lock / 1000000)) $((mutex / 1000000)) "$(ratio "$lock" "$mutex")" "$fewest"
    [ "$(count 1 turns)" = "$entries" ] && [ "$(count 2 turns)" = "$entries" ] || fail "not every list has $entries entries"
    [ "$fewest" -gt 0 ] || fail "a thread of $threads had no turn"
    [ "$threads" -eq 2 ] || holds "$lock <= 1.25 * $mutex" || fail "more than 1.25 times the mutex's time at $threads threads"
done
exit "$status"
