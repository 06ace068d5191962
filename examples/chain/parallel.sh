#!/bin/sh
# Runs the desks of a chain, one process a hotel, under GNU parallel (Debian: parallel).
#
#     parallel.sh FOLDER [PROCESSES]
#
# As many at once as there are processors, or PROCESSES. Hotels that have their journal are left as they are, so a
# run that was ended goes on where it was.
here=$(dirname -- "$(readlink -f -- "$0")")
command -v parallel >/dev/null || { echo "GNU parallel is not there: it is in Debian's package parallel"; exit 1; }
begin=$(date +%s%N)
find "$1" -mindepth 1 -maxdepth 1 -type d | sort | parallel --will-cite ${2:+-j "$2"} "$here/hotel.sh"
echo "$((($(date +%s%N) - begin) / 1000000)) ms"
