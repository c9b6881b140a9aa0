#!/bin/bash
# Runs each example, and those of docs/SCRIPT.md, through ./tmf as a user does, in an empty folder: compares output and status.
# shellcheck disable=SC2016 # the names of volumes begin with a dollar sign
root=$(cd -- "$(dirname -- "${BASH_SOURCE[0]}")/.." && pwd) || exit 1
for tool in rt timeout; do
    if ! command -v "$tool" >/dev/null; then
        echo "end to end: not run, since $tool is not on the PATH"
        exit 1
    fi
done

room=$(mktemp -d) || exit 1
trap 'rm -rf -- "$room"' EXIT
mkdir "$room/folder" && cd "$room/folder" || exit 1
passed=0
survived=0
failed=0

# Runs the program with the words that follow, and checks its status, its output, that it says nothing on
# standard error, and that it leaves no file behind.
check() {
    local name=$1 input=$2 output=$3 wanted=$4 status
    shift 4
    timeout 60 "$root/tmf" "$@" <"$input" >"$room/out" 2>"$room/err"
    status=$?
    if [ "$status" -ne "$wanted" ]; then
        echo "$name: status $status, and $wanted is wanted"
    elif ! diff -- "$output" "$room/out" >"$room/diff"; then
        echo "$name: the output differs:"
        cat "$room/diff"
    elif [ -s "$room/err" ]; then
        echo "$name: it writes to standard error:"
        cat "$room/err"
    elif [ -n "$(ls -A .)" ]; then
        echo "$name: it leaves files behind"
    else
        passed=$((passed + 1))
        return
    fi
    failed=$((failed + 1))
}

# The block of docs/SCRIPT.md with this number, from 1.
block() {
    awk -v wanted="$1" '/^```/ { fences++; next } fences == 2 * wanted - 1' "$root/docs/SCRIPT.md"
}

# Checks that the text, behind three lines that declare a trail, a volume and a file, is refused with this line.
refuses() {
    printf 'trail AUX1\nvolume $DATA1 AUX1\nfile ACCT $DATA1 4\n%b' "$2" >"$room/text"
    echo "$1" >"$room/answer"
    check "$1: ${2:0:40}" "$room/text" "$room/answer" 5 run
}

# The first call builds the program, which takes as long as it takes.
"$root/tmf" run </dev/null >/dev/null
if [ ! -x "$root/crates/tmf_cli/out/tmf_cli" ]; then
    echo "end to end: the program is not built"
    exit 1
fi

for script in "$root"/examples/*.tmf "$root"/examples/rows/*.tmf; do
    wanted=0
    [ ! -f "${script%.tmf}.status" ] || wanted=$(<"${script%.tmf}.status")
    check "${script#"$root/examples/"}" "$script" "${script%.tmf}.out" "$wanted" run
done

# The manual: its scripts print what it says.
block 1 >"$room/manual.tmf"
block 2 >"$room/manual.out"
check "the script of docs/SCRIPT.md" "$room/manual.tmf" "$room/manual.out" 0 run
block 3 >"$room/manual.tmf"
block 4 >"$room/manual.out"
check "its rollforwards" "$room/manual.tmf" "$room/manual.out" 0 run

# Each reason for which a text is no script.
refuses "line 5 unknown name" 'rollforward $DATA1\nlist BOOK\n'
refuses "line 4 too long" "# $(head -c 4194304 /dev/zero | tr '\0' x)\n"
refuses "line 4 bad byte" '# caf\0303\0251\n'
refuses "line 4 unknown word" 'Format\n'
refuses "line 4 wrong place" 'commit\n'
refuses "line 4 wrong form" 'list ACCT all\n'
refuses "line 4 bad word" 'list acct\n'
refuses "line 4 bad number" 'file BOOK $DATA1 07\n'
refuses "line 4 unknown name" 'list BOOK\n'
refuses "line 5 same name" 'cache 64\ncache 64\n'
refuses "line 7 too many" 'trail AUX2\ntrail AUX3\ntrail AUX4\ntrail AUX5\n'
refuses "line 7 wrong place" 'format\nrun\nworker\n'
echo "line 1 no volume" >"$room/answer"
check "an empty text" /dev/null "$room/answer" 5 run

# The longest script, and one of one byte more: both list a file of a node that is down, as often as they may.
lists() {
    printf 'trail A1\nvolume $D1 A1\nfile ACCTACCT $D1 %s\n' "$1"
    yes "$2" | head -n 299590
}
has_bytes() {
    [ "$(wc -c <"$room/text")" -eq "$1" ] && return
    echo "the longest script: it has not $1 bytes"
    failed=$((failed + 1))
}
lists 16 "list ACCTACCT" >"$room/text"
lists 16 "list ACCTACCT not up" | tail -n +4 >"$room/answer"
has_bytes 4194304
check "4,194,304 bytes" "$room/text" "$room/answer" 0 run
lists 256 "list ACCTACCT" >"$room/text"
echo "line 299593 too long" >"$room/answer"
has_bytes 4194305
check "4,194,305 bytes" "$room/text" "$room/answer" 5 run

# A bank: four trails, eight volumes with a file each, and 2,000 transfers of 1 between accounts of the files, of which each seventh is aborted.
# It writes the script, and what that has to print: each transaction has its place behind the Start, and the lists have what was committed.
awk -v script="$room/text" -v answer="$room/answer" '
    function says(number, ending) {
        print "1.1." number ".1 " (ending == "commit" ? "committed " number + 1 : "aborted") >answer
        records = records number + 1 " " ending " 1.1." number ".1\n"
    }
    BEGIN {
        for (n = 1; n <= 4; n++) print "trail A" n >script
        for (n = 1; n <= 8; n++) print "volume $V" n " A" (n - 1) % 4 + 1 >script
        for (n = 1; n <= 8; n++) print "file F" n " $V" n " 4" >script
        print "format\nrun\nworker\nbegin" >script
        print "formatted" >answer
        for (n = 1; n <= 8; n++) {
            print "put F" n " a 1000\nput F" n " b 1000" >script
            a[n] = b[n] = 1000
        }
        print "commit" >script
        says(1, "commit")
        for (n = 0; n < 2000; n++) {
            from = n % 8 + 1
            to = (n + int(n / 3) + 1) % 8 + 1
            ending = n % 7 == 6 ? "abort" : "commit"
            print "begin\nadd F" from " a -1\nadd F" to " b 1\n" ending >script
            says(n + 2, ending)
            if (ending == "commit") {
                a[from]--
                b[to]++
            }
        }
        print "end\nrecover" >script
        printf "1 start 1\n%srecovered 2\n", records >answer
        for (n = 1; n <= 8; n++) {
            print "list F" n >script
            print "F" n " a " a[n] "\nF" n " b " b[n] "\nlisted F" n " 2" >answer
        }
    }'
check "a bank of 2,000 transfers" "$room/text" "$room/answer" 0 run

echo "usage: tmf run [--dir DIR] or tmf bank N [--dir DIR]" >"$room/usage"
check "no words" "$root/examples/first.tmf" "$room/usage" 1
check "another word" "$root/examples/first.tmf" "$room/usage" 1 walk
check "a capital letter" "$root/examples/first.tmf" "$room/usage" 1 Run
check "another word in front" "$root/examples/first.tmf" "$room/usage" 1 walk run
check "one word too many" "$root/examples/first.tmf" "$room/usage" 1 run run
check "a bank without a number" "$root/examples/first.tmf" "$room/usage" 1 bank
check "a bank of no transfers" "$root/examples/first.tmf" "$room/usage" 1 bank 0
check "a bank of 4,096 transfers" "$root/examples/first.tmf" "$room/usage" 1 bank 4096
check "a number with a zero in front" "$root/examples/first.tmf" "$room/usage" 1 bank 03
check "two numbers" "$root/examples/first.tmf" "$room/usage" 1 bank 3 4
check "a bank in an empty folder" "$root/examples/first.tmf" "$room/usage" 1 bank 3 --dir=
check "no folder" "$root/examples/first.tmf" "$room/usage" 1 run --dir
check "an empty folder" "$root/examples/first.tmf" "$room/usage" 1 run --dir=

# The transfers of a bank: four workers with so many each, and a first transaction that puts what the accounts hold. The source is left alone.
banks() {
    local number=$1
    shift
    printf '%s\n' "bank $number" "committed $((4 * (number + 1)))" "other 0" "accounts 40000" "tellers $((4 * number))" >"$room/answer"
    check "a bank of $number: $*" "$root/examples/no_worker.tmf" "$room/answer" 0 bank "$@"
}
banks 1 1
banks 100 100
banks 4095 4095
banks 100 100 --dir "$room/bank"
banks 30 "--dir=$room/bank" 30
printf '%s\n' "bank 3" "committed 0" "other 0" "accounts unknown" "tellers unknown" >"$room/answer"
check "a bank in a folder that can't be made" "$root/examples/first.tmf" "$room/answer" 0 bank 3 --dir /dev/null/node

# Two calls over one folder: the second goes on where the first has ended.
check "over a folder" "$root/examples/first.tmf" "$root/examples/first.out" 0 run --dir "$room/node"
check "again over it" "$root/examples/over_first/again.tmf" "$root/examples/over_first/again.out" 0 run "--dir=$room/node"

# A later call that recovers and lists, and the same where the folder is a file.
check "over another folder" "$root/examples/first.tmf" "$root/examples/first.out" 0 run --dir "$room/other"
check "a recovery over it" "$root/examples/over_first/recover.tmf" "$root/examples/over_first/recover.out" 0 run --dir "$room/other"
printf '%s\n' "recover failed MAT" "list ACCT not up" >"$room/refused"
check "a folder that is a file" "$root/examples/over_first/recover.tmf" "$room/refused" 0 run --dir /dev/null

# The label of the volume is taken away, as a disc that is lost: a later call says so, and what needs the volume is not up.
check "over a third folder" "$root/examples/first.tmf" "$root/examples/first.out" 0 run --dir "$room/lost"
rm -- "$room/lost/5/1"
check "a lost volume" "$root/examples/over_first/lost.tmf" "$root/examples/over_first/lost.out" 0 run --dir "$room/lost"

# The volume is lost, and a dump of it from before its transaction is put into the folder of its dumps: it is rolled forward, also behind ones that are cut off.
dump() {
    mkdir -p -- "$room/rolled/13"
    { printf '\1\1'; head -c 510 /dev/zero; printf '\1\1\2'; head -c 12 /dev/zero; printf '\1'; head -c 7 /dev/zero; printf '\1'; head -c 232 /dev/zero; } >"$room/rolled/13/1"
    for number in 0 1 2 3; do printf '\1\0\1\0\0'"\\$number"; head -c 4090 /dev/zero; done >"$room/rolled/13/2"
}
check "over a fourth folder" "$root/examples/first.tmf" "$root/examples/first.out" 0 run --dir "$room/rolled"
dump
check "a volume that is rolled forward" "$root/examples/over_first/rolled.tmf" "$root/examples/over_first/rolled.out" 0 run --dir "$room/rolled"
rolls() {
    local calls=$1
    rm -rf -- "$room/rolled"
    "$root/tmf" run --dir "$room/rolled" <"$root/examples/first.tmf" >"$room/out" || return 1
    dump
    { head -n 3 "$root/examples/over_first/recover.tmf"; printf 'lose $DATA1\nrecover\nrollforward $DATA1 kill %s\nrecover\nrollforward $DATA1\nlist ACCT\n' "$calls"; } >"$room/text"
    "$root/tmf" run --dir "$room/rolled" <"$room/text" >"$room/out" || return 1
    if [ "$calls" -eq 1000 ]; then grep -q -x 'rolled $DATA1 2' "$room/out" || return 1; else grep -q -x 'rollforward $DATA1 failed [A-Z0-9$]*' "$room/out" || return 1; fi
    grep -q -x -e 'rolled $DATA1 2' -e 'rollforward $DATA1 not lost' "$room/out" || return 1
    [ "$(tail -n 2 "$room/out")" = "$(printf '%s\n' "ACCT k1 v1" "listed ACCT 1")" ]
}
for calls in 0 1 5 12 20 1000; do
    if rolls "$calls"; then
        passed=$((passed + 1))
    else
        echo "a rollforward that is cut off behind $calls calls: what is found behind it is not what there was"
        cat "$room/out"
        failed=$((failed + 1))
    fi
done

# Recoveries over a folder that are cut off behind so many calls, each with a whole one behind it: what the run has left is found, and listed.
cuts() {
    local calls=$1
    rm -rf -- "$room/cut"
    "$root/tmf" run --dir "$room/cut" <"$root/examples/first.tmf" >"$room/out" || return 1
    { head -n 3 "$root/examples/over_first/recover.tmf"; printf 'recover kill %s\nrecover\nlist ACCT\n' "$calls"; } >"$room/text"
    "$root/tmf" run --dir "$room/cut" <"$room/text" >"$room/out" || return 1
    [ "$calls" -ne 0 ] || [ "$(head -n 1 "$room/out")" = "recover failed MAT" ] || return 1
    [ "$calls" -ne 1000 ] || [ "$(head -n 1 "$room/out")" = "1 start 1" ] || return 1
    head -n 1 "$room/out" | grep -q -x -e 'recover failed MAT' -e 'recover failed AUX1' -e 'recover failed $DATA1' -e '1 start 1' || return 1
    [ "$(grep -c -x -e '1 start 1' -e '2 commit 1.1.1.1' -e '3 start 2' "$room/out")" -eq 3 ] || return 1
    [ "$(tail -n 2 "$room/out")" = "$(printf '%s\n' "ACCT k1 v1" "listed ACCT 1")" ]
}
for calls in 0 1 3 8 20 40 60 1000; do
    if cuts "$calls"; then
        passed=$((passed + 1))
    else
        echo "a recovery that is cut off behind $calls calls: what is found behind it is not what there was"
        cat "$room/out"
        failed=$((failed + 1))
    fi
done

# The same over two trails: the first call ends with a run, and the second recovers what it has left.
calls=$root/examples/over_two_trails
check "two trails over a folder" "$calls/first.tmf" "$calls/first.out" 0 run --dir "$room/two"
check "again over them" "$calls/again.tmf" "$calls/again.out" 0 run --dir "$room/two"

# Small files: the audit of three transactions lies in three.
check "small files in a folder" "$root/examples/limits.tmf" "$root/examples/limits.out" 0 run --dir "$room/small"
if [ "$(cd "$room/small/1" && echo *)" != "1 2 3" ]; then
    echo "small files in a folder: the audit trail has other files"
    failed=$((failed + 1))
fi

printf '%s\n' "format failed MAT" "run not up" "recover not up" "list ACCT not up" >"$room/refused"
check "a folder that can't be made" "$root/examples/first.tmf" "$room/refused" 0 run --dir /dev/null/node

# A control point in a folder takes the first two files of the trail away.
check "a control point in a folder" "$root/examples/rows/control_point.tmf" "$root/examples/rows/control_point.out" 0 run --dir "$room/purged"
if [ "$(cd "$room/purged/1" && echo *)" != 3 ]; then
    echo "a control point in a folder: the audit trail has other files"
    failed=$((failed + 1))
fi

# Runs on threads print what their threads come to, which differs from run to run: each output is judged by an account of its own. The scripts of examples/threads and others that are made
# by a seed, in memory and over folders.
judged=0
judges() {
    local name=$1 script=$2 status
    shift 2
    rm -rf -- "$room/judged"
    timeout 60 "$root/tmf" "$@" <"$script" >"$room/out" 2>"$room/err"
    status=$?
    if [ "$status" -eq 0 ] && python3 "$root/tests/judge.py" "$script" "$room/out" >"$room/why"; then
        judged=$((judged + 1))
        return
    fi
    echo "$name: status $status; $(cat "$room/why")"
    cat "$script" "$room/out"
    failed=$((failed + 1))
}
for script in "$root"/examples/threads/*.tmf; do
    for times in 1 2 3; do
        judges "${script#"$root/examples/"}" "$script" run
    done
    judges "${script#"$root/examples/"} over a folder" "$script" run --dir "$room/judged"
done
for ((seed = 1; seed <= 60; seed++)); do
    python3 "$root/tests/judge.py" --make "$seed" >"$room/text"
    judges "the script of seed $seed" "$room/text" run
    [ "$seed" -gt 12 ] || judges "the script of seed $seed over a folder" "$room/text" run --dir "$room/judged"
done

# A run that is cut off behind each number of device calls, up to the first that is whole.
for ((calls = 0; calls < 400; calls++)); do
    sed "s/^run kill 30$/run kill $calls/" "$root/examples/threads/cut.tmf" >"$room/text"
    judges "a run that is cut off behind $calls calls" "$room/text" run
    grep -q -E ' (failed|indoubt|hanging) ' "$room/out" || break
done
if [ "$calls" -lt 20 ] || [ "$calls" -eq 400 ]; then
    echo "runs that are cut off: the first whole one is that of $calls calls"
    failed=$((failed + 1))
fi

# Calls that are killed in the middle of a write, by a limit on the size of their files: each commit that was printed is found again at its
# place, and what is found is in both files or in neither. The files of the volumes have 8,448 bytes, so it is an audit trail that meets the limit.
survive=$root/examples/survive
survives() {
    local limit=$1 place tx commits alice till
    rm -rf -- "$room/survive"
    prlimit --fsize="$limit" "$root/tmf" run --dir "$room/survive" <"$survive/deposits.tmf" 2>"$room/err" | cat >"$room/out"
    ended=${PIPESTATUS[0]}
    grep -q '^formatted$' "$room/out" || return 0
    "$root/tmf" run --dir "$room/survive" <"$survive/again.tmf" >"$room/again" || return 1
    while read -r tx _ place; do
        grep -q -x "$place commit $tx" "$room/again" || return 1
    done < <(grep ' committed ' "$room/out")
    commits=$(grep -c -E '^[0-9]+ commit ' "$room/again")
    alice=$(awk '$1 == "ACCT" && $2 == "alice" { print $3 }' "$room/again")
    till=$(awk '$1 == "TILL" && $2 == "t1" { print $3 }' "$room/again")
    [ "${alice:-0}" -eq $((10 * commits)) ] && [ "${till:-0}" -eq $((10 * commits)) ]
}
if command -v prlimit >/dev/null; then
    killed=0
    ended=1
    for ((limit = 8448; ended != 0 && limit < 12288; limit += 31)); do
        if survives "$limit"; then
            survived=$((survived + 1))
        else
            echo "killed at $limit bytes: what is found is not what was told"
            cat "$room/out" "$room/again"
            failed=$((failed + 1))
        fi
        [ "$ended" -eq 0 ] || killed=$((killed + 1))
    done
    if [ "$ended" -ne 0 ] || [ "$killed" -lt 20 ]; then
        echo "killed in a write: $killed calls were killed, and the last ended with status $ended"
        failed=$((failed + 1))
    fi
fi

# What README.md shows: the output of the call that is killed at 9 KiB, and of the one behind it.
shown() {
    awk -v wanted="$1" '/^```/ { if (calls) exit } /^\$ / { calls++; next } calls == wanted && !/^File size/' "$root/README.md"
}
rm -rf -- "$room/readme"
shown 1 >"$room/answer"
(ulimit -f 9 && "$root/tmf" run --dir "$room/readme" <"$survive/deposits.tmf" 2>/dev/null | cat >"$room/out")
if cmp -s "$room/answer" "$room/out"; then passed=$((passed + 1)); else echo "README.md shows another output of the call that is killed"; failed=$((failed + 1)); fi
shown 2 >"$room/answer"
check "the call that README.md shows behind it" "$survive/again.tmf" "$room/answer" 0 run --dir "$room/readme"

# Each byte of a small volume changed, one by one: what a recovery tells of it, and what is listed.
if python3 "$root/tests/changed_bytes.py" "$root/crates/tmf_cli/out/tmf_cli"; then passed=$((passed + 1)); else failed=$((failed + 1)); fi

echo "$passed passed, $judged judged, $survived killed and found again, $failed failed"
# 60 examples, the manual's two scripts, 13 texts that are refused, two of the longest, a bank's script, 13 calls with other words, six banks, 28 over folders, two
# that README.md shows, and the bytes that are changed.
[ "$failed" -eq 0 ] && [ "$passed" -eq 128 ] && [ "$judged" -gt 100 ]
