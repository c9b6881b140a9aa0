#!/bin/bash
# Measures recoveries. In memory: a run that makes 25,000 and 100,000 audit records, with a recovery and a listing behind it, less the run alone;
# and the recovery alone behind 16,000 commits in four runs. Over a folder: the recovery behind these, of which the last run was never drawn, and one
# with no block to write behind it, beside reading the same bytes with `cat` and the calls that wait for the device; and the instructions of each
# recovery, which are the same on a machine that is busy.
. "$(dirname -- "${BASH_SOURCE[0]}")/measure.sh"
runs=10

# How many files of 256 blocks the volume has, and how many keys are put in turn; without a number each put has a key of its own.
files=16
keys=0

# The head of a script: the files, on one volume.
head_lines() {
    printf '%s\n' 'trail AUX1' 'volume $DATA1 AUX1'
    for ((n = 1; n <= files; n++)); do
        echo "file F$n \$DATA1 256"
    done
}

# Runs of so many transactions of so many puts each, and what is done behind them. A run has at most 4,000 of the
# transactions, and a recovery stands between two.
script() {
    head_lines
    awk -v transactions="$1" -v puts="$2" -v files="$files" -v keys="$keys" 'BEGIN {
        print "format"
        for (t = 0; t < transactions; t++) {
            if (t % 4000 == 0) printf "%srun\nworker\n", t ? "end\nrecover\n" : ""
            print "begin"
            for (p = 0; p < puts; p++) {
                key = t * puts + p
                if (keys > 0) key %= keys
                printf "put F%d k%06d v\n", key % files + 1, key
            }
            print "commit"
        }
        print "end"
    }'
    shift 2
    [ "$#" -eq 0 ] || printf '%s\n' "$@"
}

# The time of what is done behind so many transactions of so many puts.
behind() {
    local alone whole
    script "$1" "$2" >"$room/run.tmf"
    script "$@" >"$room/whole.tmf"
    alone=$(least_of 0 "$runs" "$room/run.tmf" "$program" run) || return 1
    [ "$(grep -c ' committed ' "$room/out")" -eq "$1" ] || { echo "recovery: not all of $1 transactions were committed" >&2; return 1; }
    whole=$(least_of 0 "$runs" "$room/whole.tmf" "$program" run) || return 1
    echo $((whole - alone))
}

# The least time of so many recoveries, each over a copy of the folder $room/$1, and what the last has left in $room/copy.
recovered() {
    local times=$2 least="" begun ended i
    for ((i = 0; i < times; i++)); do
        rm -rf -- "$room/copy"
        cp -r "$room/$1" "$room/copy"
        sync
        begun=$(date +%s%N)
        "$program" run --dir "$room/copy" <"$room/recover.tmf" >"$room/out" || return 1
        ended=$(date +%s%N)
        [ -n "$least" ] && [ "$least" -le $(((ended - begun) / 1000)) ] || least=$(((ended - begun) / 1000))
    done
    echo "$least"
}

# The instructions that the program executes on a script, over no folder or over a copy of $room/$2.
counted() {
    local script=$1
    shift
    if [ "$#" -gt 0 ]; then
        rm -rf -- "$room/copy"
        cp -r "$room/$1" "$room/copy"
        set -- --dir "$room/copy"
    fi
    valgrind --tool=cachegrind --cache-sim=no --cachegrind-out-file=/dev/null "$program" run "$@" <"$script" 2>&1 >/dev/null |
        sed -n 's/.*I *refs: *//p' | tr -d ,
}

# The instructions of what is done behind 16,000 transactions of one put.
counted_behind() {
    script 16000 1 >"$room/run.tmf"
    script 16000 1 "$@" >"$room/whole.tmf"
    echo $(($(counted "$room/whole.tmf") - $(counted "$room/run.tmf")))
}

# A row with a recovery over a folder, beside the time of `cat` over its files and the time that its calls of fdatasync and fsync take.
over_folder() {
    local took read syncs waited
    took=$(recovered "$2" 5) || exit 1
    find "$room/$2" -type f >"$room/files"
    xargs cat <"$room/files" >/dev/null
    begun=$(date +%s%N)
    xargs cat <"$room/files" >/dev/null
    read=$((($(date +%s%N) - begun) / 1000))
    rm -rf -- "$room/copy"
    cp -r "$room/$2" "$room/copy"
    sync
    strace -f -T -e trace=fsync,fdatasync -o "$room/calls" "$program" run --dir "$room/copy" <"$room/recover.tmf" >/dev/null || exit 1
    syncs=$(grep -c -E ' (fsync|fdatasync)\(' "$room/calls")
    waited=$(awk -F'<' '/sync\(/ { gsub(">", "", $NF); sum += $NF } END { printf "%d", sum * 1000000 }' "$room/calls")
    row "$1" "$(commas "$took") us" \
        "\`cat\` of the same files $(commas "$read") us and $(commas "$syncs") syncs of $(commas "$waited") us: $(times_as "$took" $((read + waited))) times both"
}

few=$((25000 / 64)) many=$((100000 / 64))
"$root/tmf" run </dev/null >/dev/null
short=$(behind "$few" 64 recover 'list F1') || exit 1
long=$(behind "$many" 64 recover 'list F1') || exit 1
row "recovery and listing of $(commas $((few * 64))) records" "$(commas "$short") us"
row "recovery and listing of $(commas $((many * 64))) records" "$(commas "$long") us" "$(times_as "$long" "$short") times as long; $(times_as "$many" "$few") is linear"
files=1
keys=4000
again=$(behind 16000 1 recover) || exit 1
row "recovery of 16,000 commits of one put of 4,000 keys in 256 blocks" "$(commas "$again") us" "under 40,000 us is wanted"
command -v valgrind >/dev/null && row "the same recovery, counted" "$(commas "$(counted_behind recover)") instructions"
files=16
keys=0
once=$(behind 16000 1 recover) || exit 1
row "recovery of 16,000 commits of one put of a key each in 4,096 blocks, the last 4,000 of them in 3,074 blocks" "$(commas "$once") us" "under 40,000 us is wanted"
command -v valgrind >/dev/null && row "the same recovery, counted" "$(commas "$(counted_behind recover)") instructions"

command -v strace >/dev/null || { row "recovery over a folder" "not measured, since strace is not on the PATH"; exit 0; }
script 16000 1 >"$room/run.tmf"
{ head_lines; echo recover; } >"$room/recover.tmf"
"$program" run --dir "$room/drawn" <"$room/run.tmf" >"$room/out" || exit 1
cp -r "$room/drawn" "$room/undrawn"
"$program" run --dir "$room/drawn" <"$room/recover.tmf" >"$room/out" || exit 1
over_folder "recovery of 16,000 commits over a folder, the last 4,000 of them to be written, in 3,074 blocks" undrawn
over_folder "recovery over the same folder, no block to be written" drawn
command -v valgrind >/dev/null || exit 0
row "the same two recoveries over the folder, counted" \
    "$(commas "$(counted "$room/recover.tmf" undrawn)") and $(commas "$(counted "$room/recover.tmf" drawn)") instructions"
