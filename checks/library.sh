#!/usr/bin/env bash
# Builds libbidprice.a and libbidprice.so from the proved static library and the kit's heap file, by the system's gcc.
#
#     checks/library.sh [FOLDER [OPTIONS OF rt lib]]
#
# FOLDER is out/ where none is given. `checks/library.sh out-own --backend rattle` takes the kit's own compiler.
set -eu
top="$(cd "$(dirname "${BASH_SOURCE[0]}")/.." && pwd)"
into="${1:-$top/out}"
kit="$(dirname "$(rt doc)")"
mkdir -p "$into"
into="$(cd "$into" && pwd)"
work="$(mktemp -d)"
trap 'rm -rf "$work"' EXIT
(cd "$top/crates/bp_c" && rt lib "${@:2}") > "$work/said" 2>&1 || { tail -n 20 "$work/said" >&2; exit 70; }
(cd "$work" && ar x "$top/crates/bp_c/out/libbp_c.a" && ar x "$kit/c/liblibc_c.a")
ld -r -o "$work/one.o" "$work"/*.o
# Only the calls keep their names, so that two libraries of this kind can stand in one program.
objcopy --wildcard --keep-global-symbol='bidprice_*' "$work/one.o"
rm -f "$into/libbidprice.a"
ar rcs "$into/libbidprice.a" "$work/one.o"
gcc -shared -Wl,-z,relro,-z,now,-z,noexecstack -Wl,-soname,libbidprice.so -o "$into/libbidprice.so" "$work/one.o"
