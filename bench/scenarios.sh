#!/usr/bin/env bash
# Scenarios of five changes each on a year of 365 nights and 3,000 stays, by 1, 2 and 4 processors, beside LEMON's network
# simplex afresh: bench/scenarios.sh [LISTS]
# It wants rt, gcc and taskset (Debian's util-linux). LEMON is left out without Debian's g++ and liblemon-dev. Where the
# program has to be built, that takes some minutes, most of them for proofs.
#
# What is timed is the call `scenarios` alone, on 20,000 lists, without reading and writing. Each time is the median of
# three, and the lines run in turn. It fails where four processors answer fewer than three times what one does in a second,
# where there are four, or where one takes more than a fifth of as many solves from nothing by LEMON.
set -eu
here="$(cd "$(dirname "${BASH_SOURCE[0]}")" && pwd)"
. "$here/beside.sh"
lists="${1:-20000}"

want taskset "Debian's util-linux"
want gcc "Debian's gcc"
find_program bp_bench
processors="$(nproc)"

lines=("taskset -c 0 $program scenarios $lists")
for some in 2 4; do
    [ "$processors" -lt "$some" ] || lines+=("taskset -c 0-$((some - 1)) $program scenarios $lists")
done
run_in_turn 3 "${lines[@]}"

one="$(figure 1 scenarios)"
echo "$lists scenarios, $(count 1 scenarios) of them refused; medians of 3"
printf '%12s %14s %14s\n' processors milliseconds 'rate of one'
for ((place = 1; place <= ${#lines[@]}; place++)); do
    taken="$(figure "$place" scenarios)"
    printf '%12d %14d %14s\n' $((1 << (place - 1))) $((taken / 1000000)) "$(ratio "$one" "$taken")"
done
if [ "$processors" -ge 4 ]; then
    holds "$one >= 3 * $(figure 3 scenarios)" || fail "four processors answer fewer than three times what one does"
fi

gcc -O2 -o "$work/peak" "$here/peak.c"
echo "peak memory: $("$work/peak" "$program" scenarios "$lists" 2>&1 > /dev/null) KiB"

lemon="$(lemon_nanoseconds 7)"
if [ -z "$lemon" ]; then
    echo "LEMON is left out: it wants Debian's g++, python3 and liblemon-dev"
else
    echo "as many solves from nothing by LEMON: $((lemon * lists / 1000000)) ms (median of 7); one processor takes $(ratio "$one" $((lemon * lists))) of that"
    holds "5 * $one <= $lemon * $lists" || fail "one processor takes more than a fifth of as many solves from nothing"
fi
exit "$status"
