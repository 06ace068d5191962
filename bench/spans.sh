#!/usr/bin/env bash
# Calls of a ledger on long spans, beside a C++ program with plain arrays that makes the same ones: bench/spans.sh [VISITS]
# It wants rt and Debian's g++. Where the program has to be built, that takes some minutes, most of them for proofs.
#
# Each visit looks for a room on all nights of a span and takes one; each second visit gives it back. The ledger has 400
# nights, and the spans have as many as a row says. Each time is the median of seven, and the two programs run in turn. It
# fails where the two find another number of rooms.
set -eu
here="$(cd "$(dirname "${BASH_SOURCE[0]}")" && pwd)"
. "$here/beside.sh"
visits="${1:-1000000}"

build_yardstick spans
find_program bp_bench

echo "$visits visits, medians of 7"
printf '%12s %12s %12s %8s\n' nights 'ledger ms' 'arrays ms' times
for nights in '1 7' '100 100' '100 400' '400 400'; do
    run_in_turn 7 "$program spans $nights $visits" "$work/spans $nights $visits"
    ledger="$(figure 1 spans)" arrays="$(figure 2 spans)"
    printf '%12s %12d %12d %8s\n' "${nights/ / to }" $((ledger / 1000000)) $((arrays / 1000000)) "$(ratio "$ledger" "$arrays")"
    [ "$(count 1 spans)" = "$(count 2 spans)" ] || fail "another number of visits found rooms"
done
exit "$status"
