#!/usr/bin/env bash
# A million bookings at shared desks, beside a book of plain arrays in C++ behind one std::mutex: bench/desk_shared.sh [DESKS]
# It wants rt and Debian's g++. Where the program has to be built, that takes some minutes, most of them for proofs.
#
# By 1, 4 and 16 threads, both programs make 100,000 calls at each of ten desks of 400 nights and 4,000 stays, in equal
# parts. On a desk that takes 100,000 changes each is accepted, and the entries are counted; on one that takes a single
# change all but the first are refused, as Behind. What is measured is the calls, without opening and closing. Each time is
# the median of seven, and the programs run in turn.
#
# It fails where the desk takes more than twice the mutex's time for logged bookings at some number of threads, where a
# refused call takes longer than a logged one, where the counts differ, or where opening a desk of the greatest limits
# takes more than 1 MiB beyond its book. The lock alone beside a mutex is measured by bench/turns.sh.
set -eu
here="$(cd "$(dirname "${BASH_SOURCE[0]}")" && pwd)"
. "$here/beside.sh"
desks="${1:-10}"
calls=100000

build_yardstick desk_shared
find_program bp_bench_desk

# row THREADS KIND K L: the desk's times in line K beside the mutex's in line L.
row() {
    local ours theirs
    ours="$(figure "$3" shared)" theirs="$(figure "$4" shared)"
    printf '%8d %9s %12d %12d %8s\n' "$1" "$2" $((ours / 1000000)) $((theirs / 1000000)) "$(ratio "$ours" "$theirs")"
    [ "$(count "$3" shared)" = "$(count "$4" shared)" ] || fail "another number of bookings was accepted"
}

# least_space WHAT: the least address space in KiB in which a desk, or a book alone, is opened.
least_space() {
    local low=0 high=262144 middle
    while [ $((high - low)) -gt 16 ]; do
        middle=$(((low + high) / 2))
        if (ulimit -v "$middle" && "$program" open "$1") > "$work/log" 2>&1; then high=$middle; else low=$middle; fi
    done
    echo "$high"
}

echo "$((calls * desks)) bookings, medians of 7"
printf '%8s %9s %12s %12s %8s\n' threads bookings 'desk ms' 'mutex ms' times
for threads in 1 4 16; do
    run_in_turn 7 "$program shared $threads $calls $desks 100000" "$work/desk_shared $threads $calls $desks 100000" \
        "$program shared $threads $calls $desks 1" "$work/desk_shared $threads $calls $desks 1"
    row "$threads" logged 1 2
    row "$threads" refused 3 4
    [ "$(count 1 shared)" = $((calls * desks)) ] && [ "$(count 3 shared)" = "$desks" ] || fail "not as many were accepted"
    holds "$(figure 1 shared) <= 2 * $(figure 2 shared)" || fail "more than twice the mutex's time at $threads threads"
    holds "$(figure 3 shared) <= $(figure 1 shared)" || fail "a refused call takes longer than a logged one at $threads threads"
done
book="$(least_space book)" desk="$(least_space desk)"
echo "a program with a book of the greatest limits takes $book KiB of address space, with a desk $desk KiB"
[ "$desk" -lt 262144 ] && [ $((desk - book)) -le 1024 ] || fail "a desk takes more than 1 MiB beyond its book"
exit "$status"
