#!/bin/sh
# Runs the desk of one hotel, has its journal replayed, and leaves a row of what came out.
#
#     hotel.sh FOLDER/HOTEL
#
# A hotel that has its journal is left as it is; one without, refused, ended half way or not replayed, begins anew. The journal and the
# row come by a rename, so a run that is ended half way leaves neither. BIDPRICE names the program where it is not this
# repository's.
here=$(dirname -- "$(readlink -f -- "$0")")
program=${BIDPRICE:-$here/../../crates/bidprice/out/bidprice}
files="hotel.toml stays.csv forecast.csv bookings.csv"
cd -- "$1" || exit 1
[ -e row ] && [ -e journal ] && exit 0
rm -f row journal
begin=$(date +%s%N)
# shellcheck disable=SC2086
"$program" desk $files script.csv --workers 2 >journal.part 2>said
status=$?
entries=- vectors=- value=-
case $status in
0 | 7)
    # shellcheck disable=SC2086
    verdict=$("$program" replay $files journal.part)
    case $verdict in
    "legal "*) entries=${verdict#legal } ;;
    esac
    vectors=$(grep -c '^value ' journal.part)
    value=$(grep '^value ' journal.part | tail -n 1 | cut -d ' ' -f 2)
    if [ "$verdict" ]; then mv journal.part journal; else verdict="the journal could not be replayed"; fi
    ;;
2) verdict="the words are no line" ;;
3 | 4) verdict=$(head -n 1 journal.part) ;;
5) verdict="the journal could not be written" ;;
6) verdict="no memory" ;;
*) verdict="ended by status $status" ;;
esac
rm -f journal.part
taken=$((($(date +%s%N) - begin) / 1000000))
echo "$status $entries $vectors $value $taken $verdict" >row.part && mv row.part row
