#!/bin/bash
# Measures whole runs: of 64 puts, the most that a transaction may have, in one transaction and in one each; and of 4,096
# transactions, the most that a worker may have, over four trails and eight volumes.
. "$(dirname -- "${BASH_SOURCE[0]}")/measure.sh"

# A script of so many transactions of so many puts each.
script() {
    local transactions=$1 puts=$2 t p
    printf '%s\n' 'trail AUX1' 'volume $DATA1 AUX1' 'file ACCT $DATA1 256' format run worker
    for ((t = 1; t <= transactions; t++)); do
        echo begin
        for ((p = 1; p <= puts; p++)); do
            printf 'put ACCT key%02d%02d value%02d%02d\n' "$t" "$p" "$t" "$p"
        done
        echo commit
    done
    printf '%s\n' end recover 'list ACCT'
}

# Transfers between the accounts of eight files, so many, behind a first transaction that opens the accounts.
bank() {
    local transfers=$1 n
    printf 'trail A%d\n' 1 2 3 4
    for ((n = 1; n <= 8; n++)); do
        echo "volume \$V$n A$(((n - 1) % 4 + 1))"
    done
    for ((n = 1; n <= 8; n++)); do
        echo "file F$n \$V$n 16"
    done
    printf '%s\n' format run worker begin
    for ((n = 1; n <= 8; n++)); do
        echo "put F$n a 100000"
    done
    echo commit
    for ((n = 0; n < transfers; n++)); do
        printf 'begin\nadd F%d a -1\nadd F%d a 1\ncommit\n' $((n % 8 + 1)) $(((n / 3 + n + 1) % 8 + 1))
    done
    printf '%s\n' end recover
}

script 0 0 >"$room/none.tmf"
script 1 64 >"$room/one.tmf"
script 64 1 >"$room/each.tmf"
bank 4095 >"$room/bank.tmf"
measure "a run without a put" "$room/none.tmf" 0 100
baseline=$took baseline_is="a run without a put"
measure "64 puts in one transaction" "$room/one.tmf" 0 100
measure "64 puts in 64 transactions" "$room/each.tmf" 0 100
measure "4,096 transactions over four trails" "$room/bank.tmf" 0 5
