#!/bin/bash
# Measures runs: commits a second in memory of one worker and of 16 over two trails, each worker on accounts of its own; and the syncs that a commit makes over a folder, of
# 4 workers and of 16, each of whose transactions changes records of both trails.
. "$(dirname -- "${BASH_SOURCE[0]}")/measure.sh"

# A script of so many workers with so many transactions each, of which each changes one record of a volume (`one`) or of both (`both`). The first worker has a control point behind its transactions.
script() {
    awk -v workers="$1" -v transactions="$2" -v kind="$3" 'BEGIN {
        print "trail AUX1\ntrail AUX2\nvolume $DATA1 AUX1\nvolume $DATA2 AUX2\nfile ACCT $DATA1 16\nfile TILL $DATA2 16\nsteps 100000000\nformat\nrun"
        for (w = 1; w <= workers; w++) {
            print "worker"
            for (t = 1; t <= transactions; t++) {
                print "begin"
                if (kind == "both" || w % 2) print "put ACCT w" w "k" t % 8 " " t
                if (kind == "both" || w % 2 == 0) print "put TILL w" w "k" t % 8 " " t
                print "commit"
            }
            if (w == 1) print "control $DATA1"
        }
        print "end"
    }'
}

# The first call builds the program, which is not to be counted.
script 1 0 one | "$root/tmf" run >/dev/null || exit 1

# How long a run of these takes, less one without a transaction, in microseconds.
took() {
    local whole none
    script "$1" "$2" one >"$room/script.tmf"
    whole=$(least_of 0 5 "$room/script.tmf" "$program" run) || exit 1
    script "$1" 0 one >"$room/script.tmf"
    none=$(least_of 0 5 "$room/script.tmf" "$program" run) || exit 1
    echo $((whole - none))
}

alone=$(took 1 4000)
many=$(took 16 250)
per_second() { awk -v us="$1" 'BEGIN { printf "%d", 4000 * 1000000 / us }'; }
row "commits a second of one worker, 4,000 in memory" "$(commas "$(per_second "$alone")")" "$(commas "$(per_second "$many")") of 16 workers together"
row "of 16 workers over two trails, 4,000 together" "$(commas "$(per_second "$many")")" "$(times_as "$alone" "$many") times that of one worker"

command -v strace >/dev/null || { row "syncs of a commit over a folder" "not counted, since strace is not on the PATH"; exit 0; }
# How often a run of these syncs, in a folder of its own.
syncs() {
    script "$1" "$2" both >"$room/script.tmf"
    rm -rf -- "$room/node"
    strace -f -o "$room/calls" -e trace=fsync,fdatasync "$program" run --dir "$room/node" <"$room/script.tmf" >"$room/out" || exit 1
    grep -c -E '(^| )(fsync|fdatasync)\(' "$room/calls"
}
# How often a program syncs that only appends the same records, with as many threads.
appends() {
    rm -rf -- "$room/floor.dir"
    mkdir -- "$room/floor.dir"
    strace -f -o /dev/null -e trace=fsync,fdatasync "$room/floor" "$1" "$2" "$room/floor.dir"
}
command -v gcc >/dev/null && gcc -O2 -pthread -o "$room/floor" "$root/bench/floor.c"
each() { awk -v syncs="$1" -v commits="$2" 'BEGIN { printf "%.2f", syncs / commits }'; }
for workers in 4 16; do
    few=$(syncs "$workers" 10)
    more=$(syncs "$workers" 60)
    beside="gcc is not on the PATH"
    [ ! -x "$room/floor" ] || beside="$(each "$(appends "$workers" 50)" $((50 * workers))) of a program of C that only appends and syncs records of the same lengths, with as many threads, in the same run"
    row "syncs of a commit over a folder, $workers workers" "$(each $((more - few)) $((50 * workers)))" "$beside"
done
