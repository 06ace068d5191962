#!/bin/bash
# Runs the scripts of this folder that want nothing but the program, one after another, and keeps what each says.
#
#     bench/figures.sh [SHORT]
#
# Each script's words go to out/bench/figures/NAME, and a row tells its status, its seconds and its last line. With the
# word SHORT the long ones run a twentieth of what they do else. A figure that is a time wants a machine that does nothing
# else. It ends with status 1 where a script does.
set -u
here=$(dirname -- "$(readlink -f -- "$0")")
kept=$here/../out/bench/figures
mkdir -p "$kept"
if [ "${1:-}" = SHORT ]; then
    damage=500 without=100 random=50 desks="50 1000" growing="certificate list"
else
    damage=100000 without=2000 random=1000 desks="1000 5000" growing=""
fi
failed=0

# Runs one script with its words, and tells a row of it.
tell() {
    local name=$1 begin=$SECONDS status
    shift
    "$here/$name" "$@" >"$kept/${name%.*}" 2>&1
    status=$?
    [ "$status" -eq 0 ] || failed=1
    printf '%-26s status %d %6d s  %s\n' "$name" "$status" "$((SECONDS - begin))" "$(tail -n 1 "$kept/${name%.*}")"
}

tell check.py
tell solve.py
tell files.py
tell demo.py
tell journal.py
tell report.py
tell portfolio.py
tell chain.py
tell limits.py
tell faults.py
tell slowest.py
# shellcheck disable=SC2086
tell desk_runs.py $desks
tell random_runs.py "$random"
tell program_without_memory.py "$without"
tell damage.py "$damage"
# shellcheck disable=SC2086
tell growing.py $growing
exit $failed
