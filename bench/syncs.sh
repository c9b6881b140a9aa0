#!/bin/bash
# Counts the calls of the system that a commit makes over a folder: the difference of two runs, of 10 and of 60 transactions of one put each.
. "$(dirname -- "${BASH_SOURCE[0]}")/measure.sh"
command -v strace >/dev/null || { row "calls of the system of a commit" "not counted, since strace is not on the PATH"; exit 0; }

# A script of so many transactions.
script() {
    local t
    printf '%s\n' 'trail AUX1' 'volume $DATA1 AUX1' 'file ACCT $DATA1 4' format run worker
    for ((t = 1; t <= $1; t++)); do
        printf 'begin\nput ACCT key%02d value%02d\ncommit\n' "$t" "$t"
    done
    echo end
}

# How often a run of so many transactions makes these calls of the system, in a folder of its own.
count() {
    local calls=$1 transactions=$2
    script "$transactions" >"$room/script.tmf"
    rm -rf -- "$room/node"
    strace -f -o "$room/calls" -e trace="$calls" "$program" run --dir "$room/node" <"$room/script.tmf" >"$room/out" || exit 1
    grep -c -E "(^| )($(tr , '|' <<<"$calls"))\(" "$room/calls"
}

# The first call builds the program, which is not to be counted.
script 0 | "$root/tmf" run >/dev/null || exit 1
declare -A formats=(
    [fsync,fdatasync]="two a batch by the format of trails, a batch of audit and one of the monitor: 4, and those of draws"
    [open,openat,creat]="0: each file of a trail stays open"
    [write,pwrite64]="a batch and its gate, of audit and of the monitor: 4, and those of draws"
    [read,pread64]="0: a block that was read stays in the cache"
)
for calls in fsync,fdatasync open,openat,creat write,pwrite64 read,pread64; do
    few=$(count "$calls" 10)
    many=$(count "$calls" 60)
    row "$calls of a commit" "$(awk -v few="$few" -v many="$many" 'BEGIN { printf "%.2f", (many - few) / 50 }')" "${formats[$calls]}"
done
