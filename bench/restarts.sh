#!/usr/bin/env bash
# Restarts and group quotes beside a cold solve, on the problem that bench/solve.py calls 7 365 120 3000: bench/restarts.sh
# It wants rt. LEMON is left out without Debian's g++ and liblemon-dev, and the count of searches without Debian's valgrind.
# Where the program has to be built, that takes some minutes, most of them for proofs.
#
# A booking is one room less on each night of a stay that the first prices accept, and one less in its forecast, with the
# prices settled; a change is another rate of one stay; a group is a quote for ten rooms. Each time is the median of seven runs, of 100 of each kind.
# It fails where a booking takes more than a twentieth of a cold solve, or where LEMON finds another optimum.
set -eu
here="$(cd "$(dirname "${BASH_SOURCE[0]}")" && pwd)"
. "$here/beside.sh"
rounds=100

find_program bp_bench
run_in_turn 7 "$program restarts $rounds"
lemon="$(lemon_nanoseconds 7)"

# The searches between two looks at the clock, where valgrind is installed: it begins a new count at each.
if command -v valgrind > /dev/null; then
    valgrind --tool=callgrind --dump-before='clock_gettime*' --callgrind-out-file="$work/counts" "$program" restarts "$rounds" > /dev/null 2>&1
fi
searches() {
    [ -e "$work/counts.$1" ] || return 0
    PYTHONPATH="$here" python3 -B -c 'import sys, solve; print(solve.searches_in(sys.argv[1]))' "$work/counts.$1"
}

cold="$(figure 1 cold)"
echo "$rounds of each kind but one cold solve, medians of 7"
printf '%-10s %14s %16s %12s %10s\n' kind microseconds 'of a cold solve' 'of LEMON' searches
place=1
for kind in cold booking rate group; do
    each="$rounds"
    [ "$kind" != cold ] || each=1
    awk -v k="$kind" -v t="$(figure 1 "$kind")" -v c="$cold" -v l="$lemon" -v s="$(searches $((2 * place)))" -v n="$each" 'BEGIN {
        t /= n
        printf "%-10s %14.1f %16.4f %12s %10s\n", k, t / 1000, t / c, l == "" ? "-" : sprintf("%.4f", t / l), s == "" ? "-" : sprintf("%.2f", s / n)
    }'
    place=$((place + 1))
done
if [ -n "$lemon" ]; then
    [ "$(lemon_value)" = "$(count 1 cold)" ] || fail "LEMON finds another optimum"
else
    echo "LEMON is left out: it wants Debian's g++, python3 and liblemon-dev"
fi
holds "20 * $(figure 1 booking) <= $rounds * $cold" || fail "a booking takes more than a twentieth of a cold solve"
exit "$status"
