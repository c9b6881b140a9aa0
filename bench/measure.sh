#!/bin/bash
# What the measurements share: a folder of their own, times, and the lines that they print, which are those of a table.
root=$(cd -- "$(dirname -- "${BASH_SOURCE[0]}")/.." && pwd) || exit 1
# The program that ./tmf has built, which looks at the age of the sources first.
program=$root/crates/tmf_cli/out/tmf_cli
room=$(mktemp -d) || exit 1
trap 'rm -rf -- "$room"' EXIT

# A line of the table: what was measured, the figure, and what it is compared with.
row() {
    printf '| %s | %s | %s |\n' "$1" "$2" "${3:-}"
}

# A number with a comma before each three digits.
commas() {
    sed -E ':a; s/^([0-9]+)([0-9]{3})/\1,\2/; ta' <<<"$1"
}

# How many times as great the first number is as the second.
times_as() {
    awk -v a="$1" -v b="$2" 'BEGIN { if (b > 0) printf "%.2f", a / b; else printf "?" }'
}

# The least time of so many runs of a command on an input, in microseconds; each run must end with the status.
least_of() {
    local wanted=$1 times=$2 input=$3 least="" begun ended status i
    shift 3
    for ((i = 0; i < times; i++)); do
        begun=$(date +%s%N)
        "$@" <"$input" >"$room/out"
        status=$?
        ended=$(date +%s%N)
        if [ "$status" -ne "$wanted" ]; then
            echo "$1: status $status, and $wanted is wanted" >&2
            return 1
        fi
        [ -n "$least" ] && [ "$least" -le $(((ended - begun) / 1000)) ] || least=$(((ended - begun) / 1000))
    done
    echo "$least"
}

# The least time of so many runs of the program on a script, beside the one in `baseline`, if there is one.
measure() {
    local name=$1 script=$2 wanted=$3 times=$4 against=""
    "$root/tmf" run <"$script" >"$room/out"
    took=$(least_of "$wanted" "$times" "$script" "$program" run) || exit 1
    [ -z "$baseline" ] || against="$(times_as "$took" "$baseline") times $baseline_is"
    row "$name, $(commas "$(stat -c %s "$script")") bytes" "$(commas "$took") us" "$against"
}
