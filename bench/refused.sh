#!/bin/bash
# Measures the reading of texts of 4 MiB that are no script: refused at the first line, late, and in a line without an end.
. "$(dirname -- "${BASH_SOURCE[0]}")/measure.sh"
size=$((4 * 1024 * 1024))

head_lines() {
    printf '%s\n' 'trail AUX1' 'volume $DATA1 AUX1' 'file ACCT $DATA1 4' format run worker
}

# The lines that follow a first put are read on up to the 65th.
puts() {
    head_lines
    echo begin
    yes 'put ACCT key value'
}

# A last line of one word, which no line feed ends.
long_word() {
    head_lines
    echo begin
    printf 'put ACCT key '
    yes v | tr -d '\n'
}

# The same line, ended: its value is too long.
long_line() {
    long_word | head -c $((size - 1))
    echo
}

yes '' 2>/dev/null | head -c "$size" >"$room/empty_lines.tmf"
puts 2>/dev/null | head -c "$size" >"$room/puts.tmf"
long_word 2>/dev/null | head -c "$size" >"$room/long_word.tmf"
long_line 2>/dev/null >"$room/long_line.tmf"
measure "empty lines" "$room/empty_lines.tmf" 5 20
measure "puts without an end" "$room/puts.tmf" 5 20
measure "a word without an end" "$room/long_word.tmf" 5 20
measure "a line that is too long" "$room/long_line.tmf" 5 20
