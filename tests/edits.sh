#!/bin/bash
# Tries the edits of tests/edits/, for which the gate has no time: in a copy of the repository they stand in place of those of crates/NAME/must-fail/, and the prover
# must refuse each. The words are names of crates; with none it tries those of all. Libraries that are kept here, of the same texts, are not proved again.
root=$(cd -- "$(dirname -- "${BASH_SOURCE[0]}")/.." && pwd) || exit 1
set -o pipefail
for tool in rt git tar; do
    if ! command -v "$tool" >/dev/null; then
        echo "edits: not tried, since $tool is not on the PATH"
        exit 1
    fi
done

room=$(mktemp -d) || exit 1
trap 'rm -rf -- "$room"' EXIT
cd "$root" || exit 1
names=("$@")
[ "${#names[@]}" -gt 0 ] || mapfile -t names < <(cd tests/edits && printf '%s\n' *)
git ls-files -z | tar --null -T - -cf - | tar -xf - -C "$room" || exit 1
rm -rf -- "$room"/crates/*/must-fail
for name in "${names[@]}"; do
    if [ ! -d "tests/edits/$name" ]; then
        echo "edits: tests/edits/ has none of a crate $name"
        exit 1
    fi
    cp -r -- "tests/edits/$name" "$room/crates/$name/must-fail" || exit 1
done
for kept in crates/*/out/rlib; do
    [ ! -d "$kept" ] || { mkdir "$room/${kept%/rlib}" && cp -a -- "$kept" "$room/$kept"; } || exit 1
done
cd "$room" && git init -q . || exit 1
rt must-fail "${names[@]}"
status=$?
[ "$status" -eq 0 ] && echo "edits: each was refused"
exit "$status"
