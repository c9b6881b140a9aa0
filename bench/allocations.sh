#!/bin/bash
# Runs each of five scripts, or those that are given, once for each allocation that the program makes, with that one refused, and counts the statuses.
# Of each run the output has to be a front of the whole output with status 2; or, with status 0, the whole output, or a front of it and the line of an action refused
# by a device that could not grow, of an attempt for which such a device failed, or of one that found no memory, and what the script prints behind that.
# The threads of a run make their allocations in an order of their own, so the number of one may be that of another in the next run.
. "$(dirname -- "${BASH_SOURCE[0]}")/measure.sh"

if ! command -v gcc >/dev/null; then
    row "refused allocations" "not tried, since gcc is not on the PATH"
    exit 0
fi

# Refuses the allocation whose number the environment gives, and writes `refused` into a file when it does.
gcc -O2 -shared -fPIC -o "$room/refuse.so" -x c - -ldl <<'C' || exit 1
#define _GNU_SOURCE
#include <dlfcn.h>
#include <fcntl.h>
#include <stdlib.h>
#include <unistd.h>
static unsigned long made;
static int is_refused(void) {
    const char *wanted = getenv("REFUSED_ALLOCATION");
    if (!wanted || ++made != strtoul(wanted, 0, 10)) return 0;
    int mark = open(getenv("REFUSED_MARK"), O_CREAT | O_WRONLY, 0600);
    if (mark >= 0) close(mark);
    return 1;
}
void *malloc(size_t size) {
    static void *(*real)(size_t);
    if (!real) real = dlsym(RTLD_NEXT, "malloc");
    return is_refused() ? 0 : real(size);
}
void *realloc(void *old, size_t size) {
    static void *(*real)(void *, size_t);
    if (!real) real = dlsym(RTLD_NEXT, "realloc");
    return is_refused() ? 0 : real(old, size);
}
C

program=$root/crates/tmf_cli/out/tmf_cli

# Whether the first file is a front of the second.
is_front() {
    cmp -s -n "$(stat -c %s "$1")" "$1" "$2"
}

# Whether the first line that differs from the second file's is that of a refused action, or of an attempt that such a device or want of memory has ended.
is_refused_action() {
    awk 'NR == FNR { whole[NR] = $0; next }
        $0 != whole[FNR] { exit !/^((format|recover|run|list [A-Z0-9]+) failed |[0-9.]+ (memory$|failed |indoubt |hanging ))/ }' "$2" "$1"
}

# Whether the output of a run with this status is one of those allowed.
is_allowed() {
    case $1 in
    0) is_refused_action "$room/out" "$room/whole" ;;
    2) is_front "$room/out" "$room/whole" ;;
    *) false ;;
    esac
}

# Refuses each allocation of a run of the script in turn.
refuse_each() {
    local script=$1 number status wrong=0 said=
    local -A counts=()
    "$root/tmf" run <"$script" >"$room/whole" || exit 1
    for ((number = 1; ; number++)); do
        rm -f "$room/mark"
        REFUSED_ALLOCATION=$number REFUSED_MARK=$room/mark LD_PRELOAD=$room/refuse.so "$program" run <"$script" >"$room/out"
        status=$?
        [ -e "$room/mark" ] || break
        counts[$status]=$((${counts[$status]:-0} + 1))
        is_allowed "$status" || {
            echo "allocation $number of $script: status $status, and the output is none of those allowed"
            wrong=$((wrong + 1))
        }
    done
    for status in "${!counts[@]}"; do
        said="$said, ${counts[$status]} with status $status"
    done
    row "$(basename "$script"), each of $((number - 1)) allocations refused" "${said#, }" "$wrong with an output that is not allowed"
    [ "$wrong" -eq 0 ]
}

[ "$#" -gt 0 ] || set -- "$root"/examples/{three,two_trails,formats_over_old,refusals,row}.tmf
failed=0
for script in "$@"; do
    refuse_each "$script" || failed=1
done
exit "$failed"
