#!/usr/bin/env bash
# Refuses the readers of a hotel's files each of their allocations in turn: bench/files_without_memory.sh
# It wants the program and gcc.
#
# A desk opens on the files of examples/lindenhof, and on files that are refused. With one allocation refused the program
# must end with status 6 and a first part of its answer, or with its own status and its own whole answer.
set -u
here="$(cd "$(dirname "${BASH_SOURCE[0]}")" && pwd)"
top="$(dirname "$here")"
files="$top/examples/lindenhof"
program="${BIDPRICE:-$top/crates/bidprice/out/bidprice}"
work="$(mktemp -d)"
trap 'rm -rf "$work"' EXIT

[ -x "$program" ] || { echo "$program is not there: a first call of ./bidprice builds it"; exit 1; }
gcc -O2 -shared -fPIC -o "$work/refuse.so" "$here/refuse.c" -ldl || exit 1

# Opens a desk on these files with each allocation refused in turn, until there is none more to refuse.
refuse_each() {
    local answer status said ended nth=0
    answer="$("$program" desk "$@" --workers 0)"
    status=$?
    while :; do
        nth=$((nth + 1))
        said="$(REFUSE=$nth LD_PRELOAD="$work/refuse.so" "$program" desk "$@" --workers 0 2> "$work/refused")"
        ended=$?
        if [[ $ended -eq 6 && $answer == "$said"* && -s $work/refused ]]; then
            continue
        elif [ "$ended" -ne "$status" ] || [ "$said" != "$answer" ]; then
            printf '%s\nallocation %s was refused, and the program ended with status %s\n' "$said" "$nth" "$ended"
            exit 1
        elif [ ! -s "$work/refused" ]; then
            break
        fi
    done
    echo "status $status: each of $((nth - 1)) allocations was refused in turn"
}

hotel="$files/hotel.toml"
stays="$files/stays.csv"
forecast="$files/forecast.csv"
bookings="$files/bookings.csv"
script="$work/script-of-one-session.csv"
sed '2,$ s/^[^,]*,/1,/' "$files/script.csv" > "$script"
{ cat "$hotel"; printf '\n[[night]]\ndate = "2025-07-16"\nrooms = 1\n'; } > "$work/hotel.toml"
{ cat "$stays"; printf 'JUL01-1,2025-07-02,1,8900,\n'; } > "$work/stays.csv"
{ cat "$forecast"; printf 'JUL99-1,3\n'; } > "$work/forecast.csv"
{ cat "$bookings"; printf 'JUL14-2,25\n'; } > "$work/bookings.csv"
{ cat "$script"; printf '33,book,JUL14-2,,,\n'; } > "$work/script.csv"

refuse_each "$hotel" "$stays" "$forecast" "$bookings" "$script"
refuse_each "$hotel" "$files/stays-from-a-spreadsheet.csv" "$forecast" "$bookings" "$script"
refuse_each "$work/hotel.toml" "$stays" "$forecast" "$bookings" "$script"
refuse_each "$hotel" "$work/stays.csv" "$forecast" "$bookings" "$script"
refuse_each "$hotel" "$stays" "$work/forecast.csv" "$bookings" "$script"
refuse_each "$hotel" "$stays" "$forecast" "$work/bookings.csv" "$script"
refuse_each "$hotel" "$stays" "$forecast" "$bookings" "$work/script.csv"
