#!/bin/bash
# Measures `tmf bank N`: commits a second in memory, of its four workers and of one, and over a folder; syncs of a commit over a folder; the most memory. Beside those over a folder a program of C
# that only appends and syncs records of the same lengths, with four threads, in the same run.
. "$(dirname -- "${BASH_SOURCE[0]}")/measure.sh"

# The first call builds the program, which is not to be counted.
"$root/tmf" run </dev/null >/dev/null
[ "$?" -eq 5 ] || exit 1

# A transfer has two audit records for the trail of the accounts, of 128 bytes each, and one for that of the tellers.
command -v gcc >/dev/null && gcc -O2 -pthread -o "$room/floor" "$root/bench/floor.c"
floor() {
    rm -rf -- "$room/floor.dir"
    mkdir -- "$room/floor.dir"
    "$@" "$room/floor" 4 "$number" "$room/floor.dir" 2
}
bank() {
    rm -rf -- "$room/node"
    "$@" "$program" bank "$number" --dir "$room/node"
}
per_second() { awk -v us="$1" -v commits="$2" 'BEGIN { printf "%d", commits * 1000000 / us }'; }

# The script of one worker with 4,000 transfers, behind a control point.
alone() {
    awk 'BEGIN {
        print "trail AUX1\ntrail AUX2\nvolume $DATA1 AUX1\nvolume $DATA2 AUX2\nfile ACCT $DATA1 16\nfile TELLER $DATA2 4\nsteps 100000000\nformat\nrun\nworker\ncontrol $DATA1\nbegin"
        for (j = 0; j < 10; j++) print "put ACCT A1" j " 1000"
        print "put TELLER T1 0\ncommit"
        for (i = 1; i <= 4000; i++) {
            m = 1 + i % 100
            print "begin\nadd ACCT A1" i % 10 " -" m "\nadd ACCT A1" (7 * i + 3) % 10 " " m "\nadd TELLER T1 1\ncommit"
        }
        print "end\nrecover\nlist ACCT\nlist TELLER"
    }'
}
alone >"$room/alone.tmf"
one=$(least_of 0 5 "$room/alone.tmf" "$program" run) || exit 1
one=$(per_second "$one" 4001)

for number in 1000 4000; do
    commits=$((4 * (number + 1)))
    many=$(least_of 0 5 /dev/null "$program" bank "$number") || exit 1
    if [ "$(<"$room/out")" != "$(printf '%s\n' "bank $number" "committed $commits" "other 0" "accounts 40000" "tellers $((4 * number))")" ]; then
        echo "bank $number: another output" >&2
        cat "$room/out" >&2
        exit 1
    fi
    many=$(per_second "$many" "$commits")
    row "commits a second of \`tmf bank $number\` in memory, with its recovery and lists" "$(commas "$many")" "$(commas "$one") of one worker with 4,000 transfers: $(times_as "$many" "$one") times as many"
    folder=$(least_of 0 3 /dev/null bank) || exit 1
    beside="gcc is not on the PATH"
    if [ -x "$room/floor" ]; then
        least=$(least_of 0 3 /dev/null floor) || exit 1
        beside="$(commas "$(per_second "$least" "$((4 * number))")") of the program of C: $(times_as "$least" "$folder") times as many"
    fi
    row "of \`tmf bank $number\` over a folder" "$(commas "$(per_second "$folder" "$commits")")" "$beside"
    if command -v strace >/dev/null; then
        bank strace -f -o "$room/calls" -e trace=fsync,fdatasync >"$room/out" || exit 1
        syncs=$(grep -c -E '(^| )(fsync|fdatasync)\(' "$room/calls")
        [ ! -x "$room/floor" ] || beside="$(awk -v syncs="$(floor strace -f -o /dev/null -e trace=fsync,fdatasync)" -v commits="$((4 * number))" 'BEGIN { printf "%.2f", syncs / commits }') of the program of C"
        row "syncs of a commit of \`tmf bank $number\` over a folder, of the whole call" "$(awk -v syncs="$syncs" -v commits="$commits" 'BEGIN { printf "%.2f", syncs / commits }')" "$beside"
    fi
    row "the most memory of \`tmf bank $number\`" "$(commas "$(/usr/bin/time -f %M "$program" bank "$number" 2>&1 >"$room/out")") KB" "10,000 KB wanted at 1000"
done
