#!/bin/bash
# Measures how the time to attach a trail, and to read all its records, grows with their number: four times the records.
# No program calls a trail alone, so this builds a small one over the crates below it: once, into bench/out/, over what is kept of their proofs.
. "$(dirname -- "${BASH_SOURCE[0]}")/measure.sh"
few=25000
many=100000
runs=5
below=(tmf_model disk_model trail_files)
timer=$root/bench/out/trail_times

# Whether the program was built since this file and the crates were changed.
is_built() {
    [ -x "$timer" ] && [ -z "$(find "$root/bench/trail.sh" "${below[@]/#/$root/crates/}" -path '*/out' -prune -o -type f -newer "$timer" -print)" ]
}

# A repository of the trail's crates and a program that writes a trail in memory and times the calls that read it.
build() {
    local name part program=$room/node/crates/trail_times
    mkdir -p "$program/"{src,specs,proofs} "$root/bench/out" || exit 1
    for name in "${below[@]}"; do
        mkdir "$room/node/crates/$name" || exit 1
        for part in src specs proofs out; do
            [ ! -d "$root/crates/$name/$part" ] || cp -a "$root/crates/$name/$part" "$room/node/crates/$name" || exit 1
        done
        grep -E "^$name( [^:]*)?:" "$root/crates.txt" >>"$room/node/crates.txt"
    done
    echo "trail_times: ${below[*]}" >>"$room/node/crates.txt"
    : >"$program/specs/Lib.antt"
    : >"$program/proofs/Lib.antt"
    source_of >"$program/src/main.rt"
    proofs_of "$program/proofs"
    (cd "$program" && rt run --jobs "${TMF_JOBS:-$(getconf _NPROCESSORS_ONLN)}" -- 0 </dev/null >"$room/build" 2>&1)
    cp "$program/out/trail_times" "$timer" || { tail -20 "$room/build"; exit 1; }
}

source_of() {
    cat <<'PROGRAM'
//! Writes so many audit records to a trail on a device in memory, and prints how long it takes to attach it and to read them.
#![tactic(auto)]

ghost use Rattle.std.specs.Prelude.{◌≡◌, ◌≤◌, ◌<◌, ◌+◌, ◌∷◌, [], length, true, is_some, IfOk, OnOk};
ghost use Rattle.tmf_model.specs.Word.{is_key, is_value};
ghost use Rattle.trail_files.specs.declared.rules.Rules.{Rules};
ghost use Rattle.trail_files.specs.AuditFormat.{is_audit_record, is_image};
ghost use Rattle.trail_files.specs.AuditRecord.{audit_format};
ghost use Rattle.trail_files.specs.Format.{AllValid};
ghost use Rattle.trail_files.specs.Trail.{IsWritable};

use disk_model::{Disk, DiskFault, MemDisk};
use std::alloc::{AllocError, Global};
use std::env;
use std::process::ExitCode;
use std::time::{Clock, Duration, Instant};
use tmf_model::{Key, Sequence, Transid, Value};
use trail_files::{AuditKind, AuditRecord, Rules, Trail, TrailPhase};

/// The most records of a batch.
const MOST: u32 = 512;

/// The length in bytes at which the trail goes on in a new file: 16 batches.
const ROLL: u64 = 1 << 20;

fn rules(alloc: Global) -> Result<Rules, AllocError>
    ensures discs { IfOk result (λ rules. rules.discs ≡ 1 ∷ []) }
    ensures files { IfOk result (λ rules. rules.files ≡ (1, 1) ∷ []) }
{
    Ok(Rules {
        roll: ROLL,
        trail: 1,
        discs: Sequence::new(vec![in alloc; 1]?),
        files: Sequence::new(vec![in alloc; (1, 1)]?),
    })
}

fn change(position: u64, key: Key, after: Option<Value>) -> AuditRecord
    requires key { is_key key ≡ true }
    requires after { is_image after ≡ true }
    requires some { is_some after ≡ true }
    ensures valid { (rules : Rules) → rules.discs ≡ 1 ∷ [] → rules.files ≡ (1, 1) ∷ []
        → 1 ≤ position → position ≤ 4611686018427387903
        → is_audit_record rules result ≡ true }
{
    AuditRecord {
        kind: AuditKind::Change,
        disc: 1,
        file: 1,
        tx: Transid {
            epoch: 1,
            worker: 1,
            ordinal: 1,
            attempt: 1,
        },
        position,
        key,
        before: None,
        after,
    }
}

/// So many changes, the first of which has this position.
fn changes(
    alloc: Global,
    key: Key,
    value: Value,
    first: u32,
    count: u32,
) -> Result<Vec<AuditRecord>, AllocError>
    requires key { is_key key ≡ true }
    requires value { is_value value ≡ true }
    requires first { 1 ≤ first }
    ensures count { IfOk result (λ made. length made.items ≡ count) }
    ensures valid { (rules : Rules) → rules.discs ≡ 1 ∷ [] → rules.files ≡ (1, 1) ∷ []
        → IfOk result (λ made. AllValid (audit_format rules) made.items) }
{
    let mut made = Vec::new(alloc);
    for offset in 0..count {
        let item = change(u64::from(first) + u64::from(offset), key, Some(value));
        made.push(item)?;
    }
    Ok(made)
}

fn land<D: Disk>(
    trail: &mut Trail<D, AuditRecord>,
    records: &[AuditRecord],
) -> Result<(), DiskFault>
    requires ready { trail.old.phase ≡ TrailPhase.Ready }
    requires some { 0 < length records.now }
    requires most { length records.now ≤ 512 }
    requires valid { AllValid (audit_format trail.old.rules) records.now }
    requires writable { IsWritable D.tells D.held trail.old }
    ensures writable { IsWritable D.tells D.held trail.new }
    ensures phase { OnOk result (trail.new.phase ≡ TrailPhase.Ready) }
    ensures rules { trail.new.rules ≡ trail.old.rules }
{
    if !trail.fits(records.len() as u32) {
        trail.roll()?;
    }
    trail.load(records)?;
    trail.gate()
}

/// Lands so many changes, in batches as great as may be. A device in memory fails for want of memory alone.
fn fill<D: Disk>(
    alloc: Global,
    trail: &mut Trail<D, AuditRecord>,
    count: u32,
) -> Result<(), AllocError>
    requires ready { trail.old.phase ≡ TrailPhase.Ready }
    requires discs { trail.old.rules.discs ≡ 1 ∷ [] }
    requires files { trail.old.rules.files ≡ (1, 1) ∷ [] }
    requires writable { IsWritable D.tells D.held trail.old }
{
    let (Ok(key), Ok(value)) = (Key::new(b"key"), Value::new(b"value")) else {
        return Err(AllocError);
    };
    let mut done = 0;
    while done < count {
        let size = (count - done).min(MOST);
        let records = changes(alloc, key, value, done + 1, size)?;
        let Ok(()) = land(trail, &records) else {
            return Err(AllocError);
        };
        done += size;
    }
    Ok(())
}

/// A device with a trail of so many records.
fn written(alloc: Global, count: u32) -> Option<MemDisk> {
    let device = MemDisk::new(alloc, 0, &[]).ok()?;
    let rules = rules(alloc).ok()?;
    let Ok(mut trail) = Trail::<MemDisk, AuditRecord>::format(alloc, device, rules) else {
        return None;
    };
    fill(alloc, &mut trail, count).ok()?;
    Some(trail.into_device())
}

/// Reads so many records, behind which there is none.
fn read<D: Disk>(trail: &mut Trail<D, AuditRecord>, count: u32) -> Option<()> {
    let mut cursor = trail.cursor();
    for _ in 0..count {
        let item = trail.next(&mut cursor).ok()?;
        item?;
    }
    match trail.next(&mut cursor) {
        Ok(None) => Some(()),
        _ => None,
    }
}

/// How long it takes to attach a trail of so many records, and to read them.
fn times<R: Clock>(clock: &R, alloc: Global, count: u32) -> Option<(Duration, Duration)> {
    let device = written(alloc, count)?;
    let rules = rules(alloc).ok()?;
    let begun = Instant::now(clock).ok()?;
    let Ok(mut trail) = Trail::<MemDisk, AuditRecord>::attach(alloc, device, rules) else {
        return None;
    };
    let attached = begun.elapsed(clock).ok()?;
    let begun = Instant::now(clock).ok()?;
    read(&mut trail, count)?;
    let read = begun.elapsed(clock).ok()?;
    Some((attached, read))
}

fn main(rt: HostRuntime) -> ExitCode {
    let count = match env::args(&rt) {
        Ok(mut words) => words.nth(1).and_then(|word| word.parse::<u32>().ok()),
        Err(_) => None,
    };
    let Some(count) = count else {
        return ExitCode::from(1);
    };
    let Some((attached, read)) = times(&rt, rt.alloc(), count) else {
        return ExitCode::from(2);
    };
    match println!(rt; "{} {}", attached.as_micros(), read.as_micros()) {
        Ok(()) => ExitCode::from(0),
        Err(_) => ExitCode::from(2),
    }
}
PROGRAM
}

# What is written by hand of the program's proof: what its loops keep.
proofs_of() {
    mkdir -p "$1/changes" "$1/fill" || exit 1
    cat >"$1/changes/Invariants.antt" <<'PROOF'
use Rattle.std.proofs.Common.{◌≡◌, ◌∷◌, [], length, true}
use Rattle.std.specs.List.{AllByRecursion}
use Rattle.trail_files.specs.declared.rules.Rules.{Rules}
use Rattle.trail_files.specs.AuditFormat.{is_audit_record}
use Rattle.trail_times.proofs.changes.Given as goal

abbrev pub invariant-loop-offset : goal.invariant-loop-offset
invariant-loop-offset l = record {
  count : length l.made.items ≡ l.offset;
  valid : (rules : Rules) → rules.discs ≡ 1 ∷ [] → rules.files ≡ (1, 1) ∷ [] → AllByRecursion (λ r. is_audit_record rules r ≡ true) l.made.items;
}
PROOF
    cat >"$1/changes/Answers.antt" <<'PROOF'
use Rattle.std.proofs.Common.{◌≡◌, ◌+◌, ◌∷◌, [], true, arith, ap, sym, subst, ◌∙◌, length, length-append}
use Rattle.std.specs.List.{AllByRecursion}
use Rattle.std.proofs.SliceLists.{all_by_recursion_push}
use Rattle.trail_files.specs.AuditFormat.{is_audit_record}
use Rattle.trail_times.proofs.changes.Goals as goal

pub loop-offset-preserved : goal.loop-offset-preserved
loop-offset-preserved c =
    let made = c.loop-offset.made.items in
    let item = c.change-item.result in
    let grown = c.in_ok-push.ensures.items in
    record {
      count = ap length grown ∙ (length-append made (item ∷ []) ∙ ap (λ n. n + 1) c.loop-offset.invariant.count);
      valid = λ rules discs files. subst (AllByRecursion (λ r. is_audit_record rules r ≡ true)) (sym grown)
          (all_by_recursion_push (λ r. is_audit_record rules r ≡ true) made item (c.loop-offset.invariant.valid rules discs files)
          (c.change-item.ensures.valid rules discs files (omega (arith, c.requires.first)) (omega (arith, c.ranges.first.fits, c.ranges.count.fits, c.loop-offset-test.true))));
    }
PROOF
    cat >"$1/fill/Invariants.antt" <<'PROOF'
use Rattle.std.proofs.Common.{◌≡◌, ◌-◌, ◌≤◌}
use Rattle.trail_files.specs.Trail.{IsWritable}
use Rattle.trail_files.specs.declared.trail.TrailPhase.TheVariants.{Ready}
use Rattle.trail_times.proofs.fill.Given as goal

abbrev pub invariant-loop-done : goal.invariant-loop-done
invariant-loop-done g l = record {
  within : l.done ≤ l.fn.count;
  ready : l.trail.phase ≡ Ready;
  rules : l.trail.rules ≡ l.initial.trail.rules;
  writable : IsWritable g.D.Disk.tells g.D.Disk.held l.trail;
}

abbrev pub decreases-loop-done : goal.decreases-loop-done
decreases-loop-done g l = l.fn.count - l.done
PROOF
    cat >"$1/fill/Answers.antt" <<'PROOF'
use Rattle.std.proofs.Common.{ap, sym, subst, ◌∙◌}
use Rattle.trail_files.specs.AuditRecord.{audit_format}
use Rattle.trail_files.specs.Format.{AllValid}
use Rattle.trail_times.proofs.fill.Goals as goal

pub land-requires-clause-valid : goal.land-requires-clause-valid
land-requires-clause-valid g c =
    let rules = c.loop-done.trail.rules in
    let same = c.loop-done.invariant.rules in
    subst (AllValid (audit_format rules)) (sym c.deref.ensures.value) (c.in_ok-records.ensures.valid rules (ap (λ r. r.discs) same ∙ c.requires.discs) (ap (λ r. r.files) same ∙ c.requires.files))
PROOF
}

# The least times of some runs of the program, to attach a trail of so many records and to read them.
times_of() {
    local i
    for ((i = 0; i < runs; i++)); do
        "$timer" "$1" || { echo "trail_times $1: status $?" >&2; exit 1; }
    done | awk '
        NR == 1 || $1 < attach { attach = $1 }
        NR == 1 || $2 < read { read = $2 }
        END { print attach, read }
    '
}

is_built || build
read -r attach_few read_few < <(times_of "$few")
read -r attach_many read_many < <(times_of "$many")
[ -n "$read_many" ] || exit 1
row "attaching a trail of $(commas "$few") records" "$(commas "$attach_few") us"
row "attaching a trail of $(commas "$many") records" "$(commas "$attach_many") us" "$(times_as "$attach_many" "$attach_few") times as long; 4 is linear"
row "reading all of $(commas "$few") records" "$(commas "$read_few") us"
row "reading all of $(commas "$many") records" "$(commas "$read_many") us" "$(times_as "$read_many" "$read_few") times as long; 4 is linear"
