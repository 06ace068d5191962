#!/usr/bin/env bash
# Refuses `Turn::new` each of its allocations in turn, in the tests of bp_turn. It wants rt, and proves nothing.
#
# A new lock over an empty list asks for memory three times: for the value's place, the words and the slot. Where one of
# these is refused, each test must end with the word memory, and none may stop in another way or pass. With the fourth
# refused, the lock is there: the test with a single lock goes on to its first entry, which finds no memory.
set -u
cd "$(dirname "${BASH_SOURCE[0]}")/../crates/bp_turn" || exit 1
status=0

for nth in 1 2 3; do
    said="$(rt try --test --fail-alloc "$nth" 2>&1)"
    if [ "$(grep -c 'error: "memory"' <<< "$said")" -ne 3 ]; then
        printf '%s\nallocation %s was refused, and not every test said so\n' "$said" "$nth"
        status=1
    fi
done

said="$(rt try --test --fail-alloc 4 2>&1)"
if grep -q 'error: "memory"' <<< "$said"; then
    printf '%s\nthe lock asks for memory more than three times\n' "$said"
    status=1
fi

[ "$status" -eq 0 ] && echo "new: each of its three allocations was refused in turn, and it answered Memory"
exit "$status"
