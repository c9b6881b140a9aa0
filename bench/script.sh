#!/bin/bash
# Measures the reader of the script language on a text of 4 MiB, beside ten runs of `wc -lw` on it: the last line is no line of a script, so
# the program reads all of it, refuses it, and does nothing else.
. "$(dirname -- "${BASH_SOURCE[0]}")/measure.sh"
size=$((4 * 1024 * 1024))
runs=10

# Transactions of 64 short operations, up to the size; a comment fills the rest, in front of a last line that is refused.
script() {
    awk -v size="$((size - 2))" '
        function line(text) { printf "%s\n", text; written += length(text) + 1 }
        function item(    i) {
            line("begin")
            for (i = 0; i < 64; i++) line("del F " i % 10)
            line("commit")
        }
        BEGIN {
            line("trail A"); line("volume $D A"); line("file F $D 1")
            while (written < size - 4096 * 540) run()
            tail()
            print "x"
        }
        function run(    w, i) {
            line("run")
            line("worker")
            for (i = 0; i < 4096 && written < size - 2048; i++) item()
            line("end")
        }
        function tail() {
            run()
            while (size - written > 1) line(substr("#########################################", 1, size - written - 1 > 40 ? 40 : size - written - 1))
            if (size > written) printf "\n"
        }
    ' </dev/null
}

script >"$room/script.tmf"
lines=$(wc -l <"$room/script.tmf")
"$root/tmf" run <"$room/script.tmf" >"$room/said"
grep -q "^line $lines " "$room/said" || { cat "$room/said"; exit 1; }
counted=$(least_of 0 "$runs" "$room/script.tmf" wc -lw) || exit 1
read_in=$(least_of 5 "$runs" "$room/script.tmf" "$program" run) || exit 1
row "reading $(commas "$(stat -c %s "$room/script.tmf")") bytes, $(commas "$lines") lines" "$(commas "$read_in") us" "$(times_as "$read_in" "$((counted * 10))") times ten runs of \`wc -lw\`, $(commas "$((counted * 10))") us"
peak=$( { /usr/bin/time -f %M "$root/crates/tmf_cli/out/tmf_cli" run <"$room/script.tmf" >/dev/null; } 2>&1 | tail -n 1)
row "memory of it at most" "$(commas "$peak") KB" "$(times_as "$((peak * 1024))" "$size") times the text"
