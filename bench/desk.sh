#!/usr/bin/env bash
# A million calls on a book as a busy desk has them, beside a C++ program with plain arrays that makes the same ones.
# Run it at any place: bench/desk.sh. It wants rt and Debian's g++. Where the program has to be built, that takes some
# minutes, most of them for proofs.
#
# Both programs make 200,000 calls on each of five books of 400 nights and 4,000 stays: bookings, cancellations, new
# forecasts, rates and rooms, and groups, with a new vector after each 200. What is measured is the calls and the
# publications, without making the books and the vectors. Each time is the median of seven, and the two programs run in
# turn. It fails where the two sums over all answers differ, where the book takes more than 1.5 times the arrays' time, or
# where a book with all its room takes, with its house and a program around it, more than 96 MiB.
set -eu
here="$(cd "$(dirname "${BASH_SOURCE[0]}")" && pwd)"
. "$here/beside.sh"

build_yardstick desk
find_program bp_bench

run_in_turn 7 "$program book 5 1000" "$work/desk 5 200000"
book="$(figure 1 book)" arrays="$(figure 2 book)"
printf '%12s %12s %8s\n' 'book ms' 'arrays ms' times
printf '%12d %12d %8s   1,000,000 calls, medians of 7\n' $((book / 1000000)) $((arrays / 1000000)) "$(ratio "$book" "$arrays")"
[ "$(count 1 book)" = "$(count 2 book)" ] || fail "the answers differ"
holds "$book <= 1.5 * $arrays" || fail "more than 1.5 times the time of plain arrays"
(ulimit -v 98304 && "$program" book 1 0) > "$work/log" 2>&1 || fail "a book takes more than 96 MiB"
exit "$status"
