#!/bin/bash
# Measures what a hand-off to the writer of a trail takes, and a flush of what has landed: so many records of a disc, a parcel each, and four times as many.
# The program uses no writer yet, so this builds a small one over the crates below it: once, into bench/out/, over what is kept of their proofs.
. "$(dirname -- "${BASH_SOURCE[0]}")/measure.sh"
few=250000
many=1000000
runs=5
below=(tmf_model disk_model trail_files chronicle node_machine audit_writer two_discs)
timer=$root/bench/out/handoff_times

# Whether the program was built since this file and the crates were changed.
is_built() {
    [ -x "$timer" ] && [ -z "$(find "$root/bench/handoffs.sh" "${below[@]/#/$root/crates/}" -path '*/out' -prune -o -type f -newer "$timer" -print)" ]
}

# A repository of these crates and a program that hands records in and times it.
build() {
    local name part program=$room/node/crates/handoff_times
    mkdir -p "$program/"{src,specs,proofs} "$root/bench/out" && cp "$root/HANDLES" "$room/node" || exit 1
    for name in "${below[@]}"; do
        mkdir -p "$room/node/crates/$name/out" || exit 1
        for part in src specs proofs out/rlib; do
            [ ! -d "$root/crates/$name/$part" ] || cp -a "$root/crates/$name/$part" "$room/node/crates/$name/$part" || exit 1
        done
        grep -E "^$name( [^:]*)?:" "$root/crates.txt" >>"$room/node/crates.txt"
    done
    echo "handoff_times: ${below[*]} atomic_table" >>"$room/node/crates.txt"
    source_of >"$program/src/main.rt"
    specs_of "$program/specs"
    proofs_of "$program/proofs"
    (cd "$program" && rt run --jobs "${TMF_JOBS:-$(getconf _NPROCESSORS_ONLN)}" -- 0 </dev/null >"$room/build" 2>&1)
    cp "$program/out/handoff_times" "$timer" || { tail -20 "$room/build"; exit 1; }
}

source_of() {
    cat <<'PROGRAM'
//! Hands so many records of a disc to the writer of a trail on a device in memory, a parcel each, and lands them whenever the queue may be full; then asks as often for
//! what has landed. It prints how long both take.
#![tactic(auto)]

ghost use Rattle.std.specs.Prelude.{◌≡◌, ◌≤◌, ◌<◌, ◌+◌, ◌-◌, [], ◌∷◌, IfOk, IfSome, IsTrue};
ghost use Rattle.chronicle.specs.Seats.{new_seat, new_seats};
ghost use Rattle.node_machine.specs.Opening.{opening_parts};
ghost use Rattle.audit_writer.specs.Parcels.{holding};
ghost use Rattle.two_discs.specs.TwoDiscs.{attempt_of, two_found, two_rules, IsFormattedForTwo, IsNamedForTwo, IsNextChange, IsOneOfTwo, IsWriting};
ghost use Rattle.handoff_times.specs.Times.{HasMade, HasMadeLast};

use audit_writer::{
    DeviceRun, DiscPass, NodeRun, OpenQueue, PicksDisc, QueueName, QueuedLock, WriterState,
    open_queue,
};
use chronicle::{Chronicle, Seat, Started};
use disk_model::{Disk, MemDisk};
use node_machine::{By, DiscEvent, Finds, NodeMachine, Opening, begin, enlist};
use std::alloc::{AllocError, Global};
use std::env;
use std::marker::Brand;
use std::process::ExitCode;
use std::sync::Wait;
use std::time::{Clock, Duration, Instant};
use tmf_model::{Key, Op, Sequence, Transid, Value};
use trail_files::{AuditKind, AuditRecord, Rules, Trail};

/// For so many parcels the queue has room.
const ROOM: u32 = 1024;

/// The first run of a node of one trail, and two volumes with a file each.
struct FirstRun;

impl Finds for FirstRun {
    ghost use Rattle.two_discs.specs.TwoDiscs.{two_found};

    ghost found = { λ _. two_found };
}

struct DiscOne;

impl PicksDisc for DiscOne {
    ghost disc = { 1 };
}

/// The disc at work: its seat and its pass.
#[derive(Drop)]
struct AtWork<J: NodeRun> {
    seat: Seat<NodeMachine, J>,
    pass: DiscPass<J, 1>,
}

fn rules(alloc: Global) -> Result<Rules, AllocError>
    ensures { IfOk result (λ r. r ≡ two_rules) }
{
    Ok(Rules {
        roll: 65536,
        trail: 1,
        discs: Sequence::new(vec![in alloc; 1, 2]?),
        files: Sequence::new(vec![in alloc; (1, 1), (2, 2)]?),
    })
}

fn known_rules(alloc: Global) -> Option<Rules>
    ensures { IfSome result (λ r. r ≡ two_rules) }
{
    match rules(alloc) {
        Ok(rules) => Some(rules),
        Err(_) => None,
    }
}

fn attempt() -> Transid
    ensures { result ≡ attempt_of 1 }
{
    Transid {
        epoch: 1,
        worker: 1,
        ordinal: 1,
        attempt: 1,
    }
}

// The change, and the value that it puts, which the key has.
fn next_change(position: u64) -> Option<(AuditRecord, Value)>
    requires { (1 ≤ position) × (position ≤ 4294967295) }
    ensures { IfSome result (λ c. IsNextChange 1 position c.1 c.0) }
{
    let value = Value::new(b"v1").ok()?;
    let change = AuditRecord {
        kind: AuditKind::Change,
        disc: 1,
        file: 1,
        tx: attempt(),
        position,
        key: Key::new(b"k1").ok()?,
        before: Some(value),
        after: Some(value),
    };
    Some((change, value))
}

// The first worker enlists the first disc.
fn enlisted<J: NodeRun>(
    chronicle: &Chronicle<NodeMachine, J>,
    worker: &mut Seat<NodeMachine, J>,
    seat: &mut Seat<NodeMachine, J>,
)
    requires opening { J.opening ≡ opening_parts two_found }
    requires worker { worker.old ≡ new_seat 0 }
    requires seat { seat.old ≡ new_seat 16 }
    ensures { HasMade J.opening 0 seat.new }
{
    let tx = attempt();
    begin(chronicle, worker, tx);
    enlist(chronicle, worker, tx, 1);
    chronicle.meet(seat, worker);
}

// The disc makes its next change.
fn change_next<J: NodeRun>(
    chronicle: &Chronicle<NodeMachine, J>,
    seat: &mut Seat<NodeMachine, J>,
    done: u32,
) -> Option<AuditRecord>
    requires few { done < 4294967295 }
    requires made { HasMade J.opening done seat.old }
    ensures { IfSome result (HasMadeLast J.opening done seat.new) }
{
    let made = next_change(u64::from(done) + 1)?;
    let change = &made.0;
    chronicle.append(seat, &DiscEvent::Write(*change, Op::Put(made.1)));
    Some(*change)
}

// The change alone.
fn parcel_of(alloc: Global, change: &AuditRecord) -> Option<Vec<AuditRecord>>
    ensures { IfSome result (λ parcel. parcel.items ≡ change.now ∷ []) }
{
    match vec![in alloc; *change] {
        Ok(parcel) => Some(parcel),
        Err(_) => None,
    }
}

// The disc makes its next change and hands it in.
fn hand_next<D: Disk, J: DeviceRun<D>, Q: QueueName, R: Wait>(
    rt: &R,
    alloc: Global,
    chronicle: &Chronicle<NodeMachine, J>,
    lock: &QueuedLock<'_, D, J, Q, 1>,
    disc: &mut AtWork<J>,
    done: u32,
) -> Option<()>
    requires few { done < 4294967295 }
    requires run { (J.found ≡ two_found) × (J.rules 1 ≡ two_rules) }
    requires made { HasMade J.opening done disc.old.seat }
    requires pass { disc.old.pass ≡ holding Q.queue 1 done }
    ensures { IfSome result (λ _. HasMade J.opening (done + 1) disc.new.seat × (disc.new.pass ≡ holding Q.queue 1 (done + 1))) }
{
    let change = change_next(chronicle, &mut disc.seat, done)?;
    let parcel = parcel_of(alloc, &change)?;
    let Ok(()) = lock.hand(rt, &mut disc.seat, &mut disc.pass, 0, parcel) else {
        return None;
    };
    Some(())
}

// What the disc has handed in lands.
fn land<D: Disk, J: DeviceRun<D>, Q: QueueName, R: Wait>(
    rt: &R,
    lock: &QueuedLock<'_, D, J, Q, 1>,
    disc: &mut AtWork<J>,
    done: u32,
) -> Option<()>
    requires made { HasMade J.opening done disc.old.seat }
    ensures made { HasMade J.opening done disc.new.seat }
    ensures pass { disc.new.pass ≡ disc.old.pass }
{
    match lock.flush_handed(rt, &mut disc.seat, By::Disc(1), &disc.pass) {
        Ok(()) => Some(()),
        Err(_) => None,
    }
}

// The disc hands so many changes in, which land whenever the queue may be full, and at the end.
fn hand_many<D: Disk, J: DeviceRun<D>, Q: QueueName, R: Wait>(
    rt: &R,
    alloc: Global,
    chronicle: &Chronicle<NodeMachine, J>,
    lock: &QueuedLock<'_, D, J, Q, 1>,
    disc: &mut AtWork<J>,
    count: u32,
) -> Option<()>
    requires run { (J.found ≡ two_found) × (J.rules 1 ≡ two_rules) }
    requires made { HasMade J.opening 0 disc.old.seat }
    requires pass { disc.old.pass ≡ holding Q.queue 1 0 }
    ensures { IfSome result (λ _. HasMade J.opening count disc.new.seat) }
{
    for done in 0..count {
        hand_next(rt, alloc, chronicle, lock, disc, done)?;
        if done % ROOM == ROOM - 1 {
            land(rt, lock, disc, done + 1)?;
        }
    }
    land(rt, lock, disc, count)
}

// The disc asks so many times for what has landed.
fn ask_many<D: Disk, J: DeviceRun<D>, Q: QueueName, R: Wait>(
    rt: &R,
    lock: &QueuedLock<'_, D, J, Q, 1>,
    disc: &mut AtWork<J>,
    count: u32,
) -> Option<()>
    requires { HasMade J.opening count disc.old.seat }
{
    for done in 0..count {
        let _ = done;
        land(rt, lock, disc, count)?;
    }
    Some(())
}

// The seats of the trail, of the first disc and of the first worker.
fn dealt<J: NodeRun>(
    mut seats: Vec<Seat<NodeMachine, J>>,
) -> (
    Seat<NodeMachine, J>,
    Seat<NodeMachine, J>,
    Seat<NodeMachine, J>,
)
    requires { seats.items ≡ new_seats 37 }
    ensures { (result.0 ≡ new_seat 24) × (result.1 ≡ new_seat 16) × (result.2 ≡ new_seat 0) }
{
    let trail = seats.swap_remove(24);
    let disc = seats.swap_remove(16);
    let worker = seats.swap_remove(0);
    (trail, disc, worker)
}

// The writer of the trail, whose seat is at the opening.
fn attached_for_two<'a, D: Disk + Drop, J: DeviceRun<D>>(
    alloc: Global,
    chronicle: &'a Chronicle<NodeMachine, J>,
    seat: Seat<NodeMachine, J>,
    trail: Trail<D, AuditRecord>,
) -> Option<WriterState<'a, D, J>>
    requires opening { J.opening ≡ opening_parts two_found }
    requires seat { seat ≡ new_seat 24 }
    requires name { IsNamedForTwo D.Disk J.found J.rules J.faults J.premise J.devices trail.device }
    requires trail { IsFormattedForTwo D.Disk trail }
    ensures { IfSome result (λ w. w.seat.part.number ≡ 1) }
{
    match WriterState::attach(alloc, trail, seat, chronicle) {
        Ok(state) => Some(state),
        Err(_) => None,
    }
}

// How long it takes to hand so many changes in, and to ask as often for what has landed.
fn timed<D: Disk, J: DeviceRun<D>, Q: QueueName, R: Clock + Wait>(
    rt: &R,
    alloc: Global,
    chronicle: &Chronicle<NodeMachine, J>,
    lock: &QueuedLock<'_, D, J, Q, 1>,
    disc: &mut AtWork<J>,
    count: u32,
) -> Option<(Duration, Duration)>
    requires run { (J.found ≡ two_found) × (J.rules 1 ≡ two_rules) }
    requires made { HasMade J.opening 0 disc.old.seat }
    requires pass { disc.old.pass ≡ holding Q.queue 1 0 }
{
    let begun = Instant::now(rt).ok()?;
    hand_many(rt, alloc, chronicle, lock, disc, count)?;
    let handed = begun.elapsed(rt).ok()?;
    let begun = Instant::now(rt).ok()?;
    ask_many(rt, lock, disc, count)?;
    let asked = begun.elapsed(rt).ok()?;
    Some((handed, asked))
}

// The run with its queue under its name.
fn run_with_queue<D: Disk + Drop, J: DeviceRun<D>, Q: QueueName, R: Clock + Wait>(
    rt: &R,
    alloc: Global,
    started: Started<NodeMachine>,
    trail: Trail<D, AuditRecord>,
    queue: OpenQueue<J, 1>,
    count: u32,
) -> Option<(Duration, Duration)>
    requires name { (started.table ≡ J.table) × (started.states ≡ J.opening) }
    requires named { queue ≡ Q.queue }
    requires opening { J.opening ≡ opening_parts two_found }
    requires carries { IsNamedForTwo D.Disk J.found J.rules J.faults J.premise J.devices trail.device }
    requires trail { IsFormattedForTwo D.Disk trail }
{
    let (chronicle, seats) = started.named::<J>(alloc).ok()?;
    let (seat, mut of_disc, mut worker) = dealt(seats);
    let state = attached_for_two(alloc, &chronicle, seat, trail)?;
    let Ok((lock, mut passes)) = QueuedLock::<D, J, Q, 1>::new(state, queue) else {
        return None;
    };
    enlisted(&chronicle, &mut worker, &mut of_disc);
    let mut disc = AtWork {
        seat: of_disc,
        pass: QueuedLock::<D, J, Q, 1>::take_pass::<DiscOne>(&mut passes, 1),
    };
    timed(rt, alloc, &chronicle, &lock, &mut disc, count)
}

// The run under its name.
fn run<D: Disk + Drop, J: DeviceRun<D>, R: Clock + Wait>(
    rt: &R,
    alloc: Global,
    started: Started<NodeMachine>,
    trail: Trail<D, AuditRecord>,
    count: u32,
) -> Option<(Duration, Duration)>
    requires name { (started.table ≡ J.table) × (started.states ≡ J.opening) }
    requires opening { J.opening ≡ opening_parts two_found }
    requires carries { IsNamedForTwo D.Disk J.found J.rules J.faults J.premise J.devices trail.device }
    requires trail { IsFormattedForTwo D.Disk trail }
{
    let queue = open_queue::<J, 1>(alloc).ok()?;
    run_with_queue::<D, J, Brand, R>(rt, alloc, started, trail, queue, count)
}

fn formatted_for_two<D: Disk + Drop>(alloc: Global, device: D) -> Option<Trail<D, AuditRecord>>
    requires { IsTrue (D.tells device) }
    ensures { IfSome result (IsFormattedForTwo D.Disk) }
{
    match Trail::format(alloc, device, known_rules(alloc)?) {
        Ok(trail) => Some(trail),
        Err(_) => None,
    }
}

fn started(alloc: Global) -> Option<Started<NodeMachine>>
    ensures { IfSome result (λ s. s.states ≡ opening_parts two_found) }
{
    match Started::<NodeMachine>::new(alloc, 37, &Opening { from: &FirstRun }) {
        Ok(started) => Some(started),
        Err(_) => None,
    }
}

// The run over a device in memory.
fn times<R: Clock + Wait>(rt: &R, alloc: Global, count: u32) -> Option<(Duration, Duration)> {
    let device = MemDisk::new(alloc, 0, &[]).ok()?;
    let trail = formatted_for_two(alloc, device)?;
    run::<MemDisk, Brand, _>(rt, alloc, started(alloc)?, trail, count)
}

fn main(rt: HostRuntime) -> ExitCode {
    let count = match env::args(&rt) {
        Ok(mut words) => words.nth(1).and_then(|word| word.parse::<u32>().ok()),
        Err(_) => None,
    };
    let Some(count) = count else {
        return ExitCode::from(1);
    };
    let Some((handed, asked)) = times(&rt, rt.alloc(), count) else {
        return ExitCode::from(2);
    };
    match println!(rt; "{} {}", handed.as_micros(), asked.as_micros()) {
        Ok(()) => ExitCode::from(0),
        Err(_) => ExitCode::from(2),
    }
}
PROGRAM
}

# What the program's clauses cite of its own.
specs_of() {
    echo "pub mod Times" >"$1/Lib.antt"
    cat >"$1/Times.antt" <<'SPEC'
-- How many changes the disc of the measurement has made.
use Rattle.std.specs.Prelude.{◌≡◌, ◌++◌, ◌∷◌, [], ℕ, List, length}
use Rattle.chronicle.specs.Seats.{Sight}
use Rattle.trail_files.specs.declared.audit_record.AuditRecord.{AuditRecord}
use Rattle.node_machine.specs.declared.event.Event.{Event}
use Rattle.node_machine.specs.Parts.{PartState}
use Rattle.two_discs.specs.TwoDiscs.{IsWriting}

-- the first disc has made so many changes
pub record HasMade (opening : List PartState) (count : ℕ) (v : Sight Event) : Type 0 where
  pub records : List AuditRecord
  pub many : length records ≡ count
  pub writing : IsWriting opening 1 records v

-- it has made so many changes, and then this one
pub record HasMadeLast (opening : List PartState) (count : ℕ) (v : Sight Event) (last : AuditRecord) : Type 0 where
  pub front : List AuditRecord
  pub many : length front ≡ count
  pub writing : IsWriting opening 1 (front ++ last ∷ []) v
SPEC
}

# What is written by hand of the program's proof.
proofs_of() {
    : >"$1/Lib.antt"
    mkdir -p "$1/"{ask_many,attached_for_two,change_next,enlisted,formatted_for_two,hand_many,hand_next,land,run,times} || exit 1
    cat >"$1/ask_many/Invariants.antt" <<'PROOF'
use Rattle.handoff_times.specs.Times.{HasMade}
use Rattle.handoff_times.proofs.ask_many.Given as goal

abbrev pub invariant-loop-done : goal.invariant-loop-done
invariant-loop-done g l = HasMade g.J.Run.opening l.count l.disc.seat
PROOF
    cat >"$1/attached_for_two/Answers.antt" <<'PROOF'
use Rattle.std.proofs.Common.{◌≡◌, [], Some, refl, ap, sym, ◌∙◌, subst, inl, arith}
use Rattle.chronicle.specs.Seats.{part_state}
use Rattle.trail_files.specs.Content.{no_content}
use Rattle.node_machine.specs.Node.{node}
use Rattle.node_machine.specs.Opening.{opening_parts, trail_part}
use Rattle.node_machine.specs.Parts.PartState.{Trail}
use Rattle.audit_writer.specs.Seat.{trail_in}
use Rattle.two_discs.specs.TwoDiscs.{two_found, two_part}
use Rattle.audit_writer.specs.Writer.{IsHandedIn, Stands}
use Rattle.handoff_times.proofs.attached_for_two.Goals as goal

pub attach-requires : goal.attach-requires
attach-requires g c =
    let o = g.J.Run.opening in
    let n = c.requires.name in
    let t = c.requires.trail in
    let at : part_state node o c.args.seat ≡ Some (Trail two_part) = ap (λ o. part_state node o c.args.seat) c.requires.opening ∙ ap (λ v. part_state node (opening_parts two_found) v) c.requires.seat in
    let part = ap trail_in at in
    let number = ap (λ p. p.number) part in
    record {
      opened = record {
        at = record {
          opens = c.requires.opening ∙ ap opening_parts (sym n.found_is);
          seat = ap (λ v. v.part) c.requires.seat ∙ ap (λ s. Some (trail_part s.number)) (sym part);
          at = at ∙ ap (λ s. Some (Trail s)) (sym part);
        };
        none = ap (λ p. p.events) part;
        ready = t.ready;
        writable = t.writable;
        file = (let present = ap (λ p. p.present) part in let file = t.file in omega (arith, present, file));
        rules = t.rules ∙ sym n.rules_are ∙ ap (λ k. g.J.NodeRun.rules k) (sym number);
        device = subst (λ k. IsHandedIn g.D.Disk (g.J.DeviceRun.devices k) c.args.trail.device) (sym number) n.handed_in;
        before = (let none = ap (λ k. g.J.NodeRun.faults k) number ∙ n.faults_are in omega (arith, none));
        told = λ old is. subst (λ k. g.J.NodeRun.premise k) (sym number) n.premise_holds;
        stands = λ premise. subst (λ p. Stands g.D.Disk c.args.trail p []) (sym part) (record {
          tells = t.tells;
          content = no_content;
          holds = t.holds;
          old = [];
          told = refl;
          from = 0;
          gone = inl refl;
          front = omega arith;
          placed = refl;
          pending = refl;
          order = refl;
          next = λ d there. tt;
        });
      };
    }
PROOF
    cat >"$1/change_next/Answers.antt" <<'PROOF'
use Rattle.std.proofs.Common.{◌≡◌, length, inl, refl, ap, sym, subst, ◌∙◌}
use Rattle.std.specs.Option.{option_map}
use Rattle.chronicle.specs.Seats.{Knows}
use Rattle.node_machine.specs.Node.{node}
use Rattle.node_machine.specs.Parts.Fact.{Enlisted}
use Rattle.node_machine.specs.declared.event.DiscEvent.TheVariants.{Write}
use Rattle.node_machine.specs.declared.event.Event.TheVariants.{OfDisc}
use Rattle.tmf_model.specs.declared.script.Op.TheVariants.{Put}
use Rattle.node_machine.proofs.Appending.{disc_may}
use Rattle.two_discs.specs.TwoDiscs.{attempt_of}
use Rattle.two_discs.proofs.Writing.{may_write, writing_more}
use Rattle.handoff_times.proofs.change_next.Goals as goal

pub append-requires : goal.append-requires
append-requires g c =
    let o = g.J.Run.opening in
    let m = c.requires.made in
    let h = m.writing in
    let v = c.args.seat.now in
    let r = c.in_ok-made.made.0 in
    let value = c.in_ok-made.made.1 in
    let new = c.in_ok-made.ensures in
    let many : c.from.result ≡ length m.records = c.from.ensures ∙ sym m.many in
    disc_may o v h.part (Write r (Put value)) h.at (may_write o 1 c.from.result value m.records v r (inl refl) h many new)
    (subst (λ t. Knows node o v (Enlisted t h.part.number)) (sym new.tx) (subst (λ n. Knows node o v (Enlisted (attempt_of 1) n)) (sym h.number) h.enlisted))

pub returns : goal.returns
returns g c =
    let o = g.J.Run.opening in
    let m = c.requires.made in
    let h = m.writing in
    let r = c.in_ok-made.made.0 in
    let value = c.in_ok-made.made.1 in
    let many : c.from.result ≡ length m.records = c.from.ensures ∙ sym m.many in
    record {
      front = m.records;
      many = m.many;
      writing = writing_more o 1 c.from.result value m.records c.args.seat.now c.append.new.seat r h many c.in_ok-made.ensures
          (c.append.ensures.state ∙ ap (λ s. option_map (λ s. node.step s (OfDisc (Write r (Put value)))) s) h.at) c.append.ensures.knows;
    }
PROOF
    cat >"$1/enlisted/Invariants.antt" <<'PROOF'
use Rattle.std.specs.Prelude.{[]}
use Rattle.handoff_times.proofs.enlisted.Given as goal

abbrev pub ghost-enlist : goal.ghost-enlist
ghost-enlist g a = []
PROOF
    cat >"$1/enlisted/Answers.antt" <<'PROOF'
use Rattle.std.proofs.Common.{[], inl, refl, subst}
use Rattle.chronicle.specs.Seats.{Knows}
use Rattle.node_machine.specs.Node.{node}
use Rattle.node_machine.specs.Parts.Fact.{Enlisted}
use Rattle.two_discs.proofs.Writing.{can_begin, writing_none}
use Rattle.handoff_times.proofs.enlisted.Goals as goal

pub begin-requires : goal.begin-requires
begin-requires g c = can_begin g.J.Run.opening 1 c.args.worker.now c.attempt-tx.result c.requires.opening (inl refl) c.requires.worker c.attempt-tx.ensures

pub returns : goal.returns
returns g c =
    let o = g.J.Run.opening in
    record {
      records = [];
      many = refl;
      writing = writing_none o 1 c.args.seat.now c.meet.new.a c.requires.opening (inl refl) c.requires.seat c.meet.ensures.first_learned
          (subst (λ t. Knows node o c.meet.new.a (Enlisted t 1)) c.attempt-tx.ensures (c.meet.ensures.told (Enlisted c.attempt-tx.result 1) c.enlist.ensures.knows));
    }
PROOF
    cat >"$1/formatted_for_two/Answers.antt" <<'PROOF'
use Rattle.std.proofs.Common.{◌∙◌}
use Rattle.handoff_times.proofs.formatted_for_two.Goals as goal

pub returns-in-Ok : goal.returns-in-Ok
returns-in-Ok g c =
    let e = c.in-Ok.ensures in
    record { tells = e.keeps.tells ∙ c.requires; ready = e.opens.0; file = e.holds.file; rules = e.opens.1 ∙ c.in_ok-known_rules.ensures; writable = e.opens.3; holds = e.holds }
PROOF
    cat >"$1/hand_many/Invariants.antt" <<'PROOF'
use Rattle.std.proofs.Common.{◌≡◌}
use Rattle.audit_writer.specs.Parcels.{holding}
use Rattle.handoff_times.specs.Times.{HasMade}
use Rattle.handoff_times.proofs.hand_many.Given as goal

abbrev pub invariant-loop-done : goal.invariant-loop-done
invariant-loop-done g l = record {
  made : HasMade g.J.Run.opening l.done l.disc.seat;
  pass : l.disc.pass ≡ holding g.Q.QueueName.queue 1 l.done;
}
PROOF
    cat >"$1/hand_next/Answers.antt" <<'PROOF'
use Rattle.std.proofs.Common.{◌≡◌, ◌+◌, ◌≢◌, ◌++◌, List, [], ◌∷◌, length, inl, refl, arith, ap, sym, ◌∙◌, subst, length-append}
use Rattle.trail_files.specs.declared.audit_record.AuditRecord.{AuditRecord}
use Rattle.audit_writer.specs.Handing.{last_of}
use Rattle.audit_writer.specs.Parcels.{Holding, has_pushed_to, holding}
use Rattle.two_discs.specs.TwoDiscs.{IsWriting}
use Rattle.two_discs.proofs.Writing.{last_position, may_push}
use Rattle.handoff_times.proofs.hand_next.Goals as goal

pub hand-requires : goal.hand-requires
hand-requires g c =
    let o = g.J.Run.opening in
    let q = g.Q.QueueName.queue in
    let last = c.in_ok-change.ensures in
    let front = last.front in
    let records = c.in_ok-parcel.parcel.items in
    let v = c.change_next.new.seat in
    let alone = c.in_ok-parcel.ensures in
    let one = ap (λ (l : List AuditRecord). length l) alone in
    let many = last.many in
    let some : records ≢ [] = λ none. (let no = ap (λ (l : List AuditRecord). length l) none in absurd (omega (arith, one, no))) in
    let writing : IsWriting o 1 (front ++ records) v = subst (λ (l : List AuditRecord). IsWriting o 1 l v) (ap (λ (l : List AuditRecord). front ++ l) (sym alone)) last.writing in (
      omega arith,
      (
        omega arith,
        (
          ap (λ (p : Holding). p.queue) c.requires.pass,
          may_push o 1 g.J.NodeRun.found (g.J.NodeRun.rules 1) q c.args.disc.now.pass front records v c.requires.run.0 c.requires.run.1 (c.requires.pass ∙ ap (λ n. holding q 1 n) (sym many)) (inl refl)
              some (omega (arith, one)) (omega (arith, one, many, c.requires.few)) writing,
        ),
      ),
    )

pub returns : goal.returns
returns g c =
    let o = g.J.Run.opening in
    let q = g.Q.QueueName.queue in
    let last = c.in_ok-change.ensures in
    let front = last.front in
    let change = c.in_ok-change.change in
    let many = last.many in
    let at = last_position o 1 front change c.change_next.new.seat last.writing in
    let end : last_of c.in_ok-parcel.parcel.items ≡ c.args.done + 1 = ap (λ (l : List AuditRecord). last_of l) c.in_ok-parcel.ensures ∙ omega (arith, at, many) in (
      record {
        records = front ++ change ∷ [];
        many = (let sum = length-append front (change ∷ []) in omega (arith, sum, many));
        writing = subst (λ v. IsWriting o 1 (front ++ change ∷ []) v) (sym c.hand.ensures.seat) last.writing;
      },
      c.in-Ok.ensures.handed ∙ ap (λ (p : Holding). has_pushed_to (last_of c.in_ok-parcel.parcel.items) p) c.requires.pass ∙ ap (λ n. holding q 1 n) end,
    )
PROOF
    cat >"$1/land/Answers.antt" <<'PROOF'
use Rattle.two_discs.proofs.Writing.{writing_learned}
use Rattle.handoff_times.proofs.land.Goals as goal

pub returns-in-Ok-clause-made : goal.returns-in-Ok-clause-made
returns-in-Ok-clause-made g c =
    let m = c.requires.made in
    record { records = m.records; many = m.many; writing = writing_learned g.J.Run.opening 1 m.records c.args.disc.now.seat c.flush_handed.new.disc c.flush_handed.ensures.learned m.writing }

pub returns-in-Err-clause-made : goal.returns-in-Err-clause-made
returns-in-Err-clause-made g c =
    let m = c.requires.made in
    record { records = m.records; many = m.many; writing = writing_learned g.J.Run.opening 1 m.records c.args.disc.now.seat c.flush_handed.new.disc c.flush_handed.ensures.learned m.writing }
PROOF
    cat >"$1/run/Invariants.antt" <<'PROOF'
use Rattle.handoff_times.proofs.run.Given as goal

abbrev pub ghosts-run_with_queue : goal.ghosts-run_with_queue
ghosts-run_with_queue g a = record { queue = a.queue }
PROOF
    cat >"$1/times/Invariants.antt" <<'PROOF'
use Rattle.std.specs.Prelude.{Some}
use Rattle.two_discs.specs.TwoDiscs.{two_found, two_rules}
use Rattle.handoff_times.proofs.times.Given as goal

abbrev pub ghosts-run-J-Run : goal.ghosts-run-J-Run
ghosts-run-J-Run g a = record { table = a.started.table; opening = a.started.states }

abbrev pub ghosts-run-J-NodeRun : goal.ghosts-run-J-NodeRun
ghosts-run-J-NodeRun g a = record { found = two_found; rules = λ _. two_rules; faults = λ _. 0; premise = λ _. Unit {0}; acts = 0 }

abbrev pub ghosts-run-J-DeviceRun : goal.ghosts-run-J-DeviceRun
ghosts-run-J-DeviceRun g a = record { devices = λ _. Some a.trail.device }
PROOF
}

# The least times of some runs of the program, to hand so many records in and to ask for them again.
times_of() {
    local i
    for ((i = 0; i < runs; i++)); do
        "$timer" "$1" || { echo "handoff_times $1: status $?" >&2; exit 1; }
    done | awk '
        NR == 1 || $1 < hand { hand = $1 }
        NR == 1 || $2 < ask { ask = $2 }
        END { print hand, ask }
    '
}

# What one of so many takes, in nanoseconds.
each() {
    awk -v time="$1" -v count="$2" 'BEGIN { printf "%.0f", time * 1000 / count }'
}

is_built || build
read -r handed_few asked_few < <(times_of "$few")
read -r handed_many asked_many < <(times_of "$many")
[ -n "$asked_many" ] || exit 1
row "handing $(commas "$few") records in, a parcel each, with a flush of each full queue" "$(commas "$handed_few") us" "$(each "$handed_few" "$few") ns a record"
row "handing $(commas "$many") records in" "$(commas "$handed_many") us" "$(each "$handed_many" "$many") ns a record; $(times_as "$handed_many" "$handed_few") times as long; 4 is linear"
row "$(commas "$few") flushes of what has landed" "$(commas "$asked_few") us" "$(each "$asked_few" "$few") ns a flush"
row "$(commas "$many") flushes of what has landed" "$(commas "$asked_many") us" "$(each "$asked_many" "$many") ns a flush; $(times_as "$asked_many" "$asked_few") times as long; 4 is linear"
