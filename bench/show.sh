#!/usr/bin/env bash
# Looks at a display while its screen follows a desk, beside a C++ program with the same vector under a std::shared_mutex:
# bench/show.sh [MILLISECONDS [VECTORS]]
# It wants rt and Debian's g++. Where the program has to be built, that takes some minutes, most of them for proofs.
#
# With 1 and with 4 threads both programs look at two nights of a vector of 400, while a thread of its own shows a new
# vector about each millisecond; in the first each of these is certified and published at a desk, and each thread has a
# view. Each number is the median of seven, and the two programs run in turn. It fails where a number falls or a sum is
# wrong, where a view does not end on the last vector, or where the looks of the first are fewer than those of the second
# at 1 thread, or fewer than four times those at 4.
set -eu
here="$(cd "$(dirname "${BASH_SOURCE[0]}")" && pwd)"
. "$here/beside.sh"
milliseconds="${1:-500}"
vectors="${2:-400}"

build_yardstick show
find_program bp_bench_desk

echo "$milliseconds ms with $vectors vectors, medians of 7"
printf '%8s %16s %18s %8s\n' threads 'views, looks/s' 'shared_mutex, /s' times
for threads in 1 4; do
    run_in_turn 7 "$program show $threads $milliseconds $vectors" "$work/show $threads $milliseconds $vectors"
    views="$(figure 1 looks)" mutex="$(figure 2 looks)"
    printf '%8d %16d %18d %8s\n' "$threads" "$views" "$mutex" "$(ratio "$views" "$mutex")"
    [ "$(count 1 looks)" = "$vectors" ] && [ "$(count 2 looks)" = "$vectors" ] || fail "a view does not end on the last vector"
    holds "$views >= $threads * $mutex" || fail "fewer than $threads times the looks of the shared_mutex at $threads threads"
done
exit "$status"
