#!/bin/bash
# Lets each device call of a run over two trails fail in turn, crashes there, and calls again: writes docs/pictures/crash_points.txt, of which
# docs/generate.py draws the picture. A line has the choice of images, the device, the call's number, how many commits were printed, and how many
# the recovery behind it has found. The loop is that of crates/tmf_cli/src/tests.rt, in a copy of the program with another main; it is run unproved.
. "$(dirname -- "${BASH_SOURCE[0]}")/measure.sh"
mkdir -p "$room/crates" && cp "$root/crates.txt" "$root/HANDLES" "$room" || exit 1
for crate in "$root"/crates/*/; do
    mkdir -p "$room/crates/$(basename "$crate")"
    for part in src specs proofs; do
        [ ! -d "$crate$part" ] || cp -r "$crate$part" "$room/crates/$(basename "$crate")"
    done
done
(cd "$room" && git init -q .)
cd "$room/crates/tmf_cli/src" || exit 1

# The helpers of the tests, up to the first test, and the loop.
awk '/^#\[test\]/ { exit } { print }' tests.rt | grep -v 'std::process::Abort' >points.rt
cat >>points.rt <<'LOOP'
const RUN: &str =
    "trail AUX1\ntrail AUX2\nvolume $D1 AUX1\nvolume $D2 AUX2\nfile F1 $D1 4\nfile F2 $D2 4\nformat\nrun\nworker\n\
    begin\nput F1 a 100\nput F2 b 100\ncommit\nbegin\nadd F1 a -1\nadd F2 b 1\ncommit\nbegin\nadd F1 a -1\nadd F2 b 1\ncommit\nend\n";

const AGAIN: &str =
    "trail AUX1\ntrail AUX2\nvolume $D1 AUX1\nvolume $D2 AUX2\nfile F1 $D1 4\nfile F2 $D2 4\nrecover\nlist F1\nlist F2\n";

/// How many lines of a text have this word second.
fn count(text: &str, wanted: &str) -> u64 {
    let mut found: u64 = 0;
    for line in text.lines() {
        let mut words = line.split(' ');
        let _first = words.next();
        if words.next() == Some(wanted) {
            found = found.saturating_add(1);
        }
    }
    found
}

/// A line for each failing call of a device.
pub fn points<R: Threads + Wait + Sync>(rt: &R, alloc: Global, device: usize, choice: u64) -> Result<String, Fail> {
    let mut lines = String::new(alloc);
    for n in 0..200 {
        let fails = Fails { device, calls: &[n], choice, ..NO_FAILS };
        let ran = run(rt, alloc, &["run"], RUN, fails)?;
        let first = printed(alloc, &ran)?;
        let was_whole = !first.contains("failed") && !first.contains("indoubt") && !first.contains("hanging");
        if first.starts_with("format failed") {
            lines.push_str(&format!(in alloc; "{choice} {device} {n} - -\n")?)?;
            continue;
        }
        if was_whole {
            return Ok(lines);
        }
        let ran = run_again(rt, alloc, AGAIN, ran)?;
        let second = printed(alloc, &ran)?;
        let told = count(&first, "committed");
        let found = count(&second, "commit");
        lines.push_str(&format!(in alloc; "{choice} {device} {n} {told} {found}\n")?)?;
    }
    Ok(lines)
}
LOOP
awk '
    /^mod top;/ { print "mod points;" }
    /^fn main\(/ { print "fn main(rt: HostRuntime) -> Result<(), std::test::Fail> {\n    let alloc = rt.alloc();\n    for choice in [0, 1, 2, 5] {\n        for device in 0..3 {\n            let lines = points::points(&rt, alloc, device, choice)?;\n            print!(rt; \"{lines}\")?;\n        }\n    }\n    Ok(())\n}"; exit }
    { print }
' main.rt >other.rt && mv other.rt main.rt
cd .. && rm -rf proofs/main && rt try --seconds 900 </dev/null >"$room/said" 2>&1
grep -E '^[0-9]+ [0-9]+ [0-9]+ ' "$room/said" >"$room/points"
if [ ! -s "$room/points" ]; then
    tail -20 "$room/said"
    exit 1
fi
cp "$room/points" "$root/docs/pictures/crash_points.txt"
wc -l <"$room/points"
