#!/bin/bash
# Runs every measurement but that of the crash points, over the built program, and writes bench/figures.md: date, machine, commit, and a table of
# each figure with what it is compared with. Says so, and writes nothing, where a script fails.
cd -- "$(dirname -- "${BASH_SOURCE[0]}")" || exit 1
../tmf run </dev/null >/dev/null
[ "$?" -eq 5 ] || exit 1
load() {
    cut -d' ' -f1 /proc/loadavg
}

began=$(load)
lines=$(mktemp) || exit 1
trap 'rm -f -- "$lines" figures.md.new' EXIT
for script in puts script refused trail recovery syncs threads bank reads allocations; do
    bash "$script.sh" >"$lines.said" || { cat "$lines.said"; echo "bench/$script.sh failed" >&2; rm -f -- "$lines.said"; exit 1; }
    sed "s/^| /| \`$script\` | /" "$lines.said" >>"$lines"
    rm -f -- "$lines.said"
done
{
    echo "# Figures"
    echo
    echo "Written by \`bench/all.sh\` on $(date -u +%Y-%m-%d), at commit $(git rev-parse --short HEAD), with $(rt version), on $(nproc) processors"
    echo "($(awk -F': ' '/model name/ { print $2; exit }' /proc/cpuinfo)); load $began at the start and $(load) at the end."
    echo "Where the load is above 1, other work ran beside it: then times are greater than on an idle machine, and counts of calls are the same."
    echo
    echo "| Script | What | Figure | Beside |"
    echo "|---|---|---|---|"
    cat "$lines"
} >figures.md.new
mv figures.md.new figures.md
