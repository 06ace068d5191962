# For the scripts of this folder that time a program of this repository beside one in C++. Such a program prints lines of a
# name, a figure and a count, of which only the figure depends on the machine. A script sets `here` first, and has `work`,
# a folder of its own that is gone when it ends, and `status`, with which it ends.

top="$(dirname "$here")"
work="$(mktemp -d)"
trap 'rm -rf "$work"' EXIT
status=0

# want COMMAND PACKAGE: ends the script where a command is missing.
want() {
    command -v "$1" > /dev/null && return
    echo "this script wants $1, which ${2:-the Rattle kit} has"
    exit 1
}

# find_program NAME: sets `program` to the built program of that crate. It is built where it is missing or older than a
# source of the repository: rt proves what is not proved yet, which takes some minutes.
find_program() {
    program="$top/crates/$1/out/$1"
    [ -x "$program" ] && [ -z "$(find "$top"/crates/*/{src,specs,proofs} "$top/crates.txt" -newer "$program" -print -quit 2> /dev/null)" ] && return
    want rt
    echo "building $1; each of its crates that has changed is proved first"
    if ! (cd "$top/crates/$1" && rt run ${JOBS:+--jobs "$JOBS"} -- tiny) > "$work/log" 2>&1; then
        tail -n 20 "$work/log"
        echo "$1 was not proved or built"
        exit 1
    fi
    [ -n "$(find "$program" -newer "$work/log" -print -quit)" ] || touch "$program"
}

# build_yardstick NAME: builds NAME.cpp of this folder as $work/NAME.
build_yardstick() {
    want g++ "Debian's g++"
    g++ -O2 -std=c++17 -pthread -w -o "$work/$1" "$here/$1.cpp"
}

# run_in_turn REPEATS LINE...: runs the lines in turn, so often each. What line K said is then in $work/said.K.
run_in_turn() {
    local repeats="$1" run line place
    shift
    rm -f "$work"/said.*
    for ((run = 0; run < repeats; run++)); do
        place=0
        for line in "$@"; do
            place=$((place + 1))
            timeout 600 $line >> "$work/said.$place" || fail "failed: $line"
        done
    done
}

# figure K NAME: the median of that figure of line K.
figure() {
    awk -v name="$2" '$1 == name { print $2 }' "$work/said.$1" | sort -n | awk '{ all[NR] = $1 } END { print NR ? all[int((NR + 1) / 2)] : 0 }'
}

# least_figure K NAME: the least of them.
least_figure() {
    awk -v name="$2" '$1 == name { print $2 }' "$work/said.$1" | sort -n | head -n 1
}

# count K NAME: the count of that name, which is the same in each run of line K, or what differs.
count() {
    awk -v name="$2" '$1 == name { print $3 }' "$work/said.$1" | sort -u | paste -sd ' '
}

# lemon_nanoseconds REPEATS: the median of a solve from nothing by LEMON's network simplex, on the problem that bench/solve.py
# calls 7 365 120 3000; nothing, where it is not installed.
lemon_nanoseconds() {
    command -v g++ > /dev/null && command -v python3 > /dev/null && [ -e /usr/include/lemon/network_simplex.h ] || return 0
    local run
    build_yardstick lemon
    (cd "$here" && python3 -B -c 'from generate import generate, problem_text; print(problem_text(*generate(7, 365, 120, 3000)), end="")') > "$work/problem"
    for ((run = 0; run < $1; run++)); do "$work/lemon" "$work/problem"; done > "$work/lemon.said"
    awk '$1 == "solve_ms" { print $2 * 1000000 }' "$work/lemon.said" | sort -n | awk '{ all[NR] = $1 } END { printf "%d\n", all[int((NR + 1) / 2)] }'
}

# lemon_value: the optimum that LEMON found there.
lemon_value() {
    awk '$1 == "value" { print $2 }' "$work/lemon.said" | sort -u | paste -sd ' '
}

# holds EXPRESSION: whether a comparison of numbers holds.
holds() {
    awk "BEGIN { exit !($1) }"
}

# ratio A B: their quotient, with two digits.
ratio() {
    awk -v a="$1" -v b="$2" 'BEGIN { if (b > 0) printf "%.2f", a / b; else printf "-" }'
}

# fail WORDS: says what is wrong, and has the script end with status 1.
fail() {
    echo "$*"
    status=1
}
