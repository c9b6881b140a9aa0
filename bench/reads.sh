#!/bin/bash
# Counts the reads and seeks of the system over a folder with 4,000 commits: of a recovery alone, and of a recovery, a run without an item and two listings.
. "$(dirname -- "${BASH_SOURCE[0]}")/measure.sh"
command -v strace >/dev/null || { row "calls of the system of a recovery" "not counted, since strace is not on the PATH"; exit 0; }

# The head of each script: sixteen files on one volume.
head_lines() {
    local n
    printf '%s\n' 'trail AUX1' 'volume $DATA1 AUX1'
    for ((n = 1; n <= 16; n++)); do
        echo "file F$n \$DATA1 16"
    done
}

# A script of 4,000 transactions of one put each.
commits() {
    local t
    head_lines
    printf '%s\n' format run worker
    for ((t = 0; t < 4000; t++)); do
        printf 'begin\nput F%d key%03d value%04d\ncommit\n' $((t % 16 + 1)) $((t % 800)) "$t"
    done
    echo end
}

# How many reads and seeks a call with this script makes, over a copy of the folder.
count() {
    local name=$1
    rm -rf -- "$room/copy"
    cp -r "$room/node" "$room/copy"
    strace -f -o "$room/calls" -e trace=read,pread64,lseek,getdents64 "$program" run --dir "$room/copy" <"$room/script.tmf" >"$room/out" || exit 1
    row "$name" "$(grep -c -E ' (read|pread64)\(' "$room/calls") reads, $(grep -c ' lseek(' "$room/calls") seeks, $(grep -c ' getdents64(' "$room/calls") folder reads" \
        "the two trails have $(commas "$bytes") bytes, $(((bytes + 16383) / 16384)) pieces of 16 KiB"
}

# The first call builds the program, which is not to be counted.
"$root/tmf" run </dev/null >/dev/null
commits | "$root/tmf" run --dir "$room/node" >/dev/null || exit 1
bytes=$(find "$room/node/0" "$room/node/1" -type f -printf '%s\n' | awk '{ bytes += $1 } END { print bytes + 0 }')
{ head_lines; echo recover; } >"$room/script.tmf"
count "a recovery of 4,000 commits in 16 files"
{ head_lines; printf '%s\n' recover run worker end recover 'list F1' 'list F16'; } >"$room/script.tmf"
count "a recovery, an empty run, a recovery and two listings"
