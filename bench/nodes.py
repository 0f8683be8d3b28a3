#!/usr/bin/env python3
"""Times nodes of few and of many objects: how long they take to open, and what their steps take.

  bench/nodes.py

Puts a small program over bmx_node into a folder of its own, and proves, builds and runs it with `rt run`. It opens
nodes of 20 objects, and one of 20,000: as many objects in all. Then another node asks to read each object, by a letter
that the node takes, and the queue is served, by a step that grants the object with its 32 fields. A node of many
objects takes longer only where what it touches isn't in the processor's caches.

Where the crates below aren't proved on this machine yet, their proofs come first, and take some minutes.
"""
import os
import shutil
import subprocess
import tempfile

FILES = {
    "src/main.rt": """//! Opens nodes of few and of many objects, and has another node ask for each object in turn.
#![tactic(auto)]

mod births;
mod failures;
mod rounds;

use births::opening;
use failures::Failure;
use rounds::{Times, measure};
use std::process::ExitCode;

/// How many objects are opened and asked for, in nodes of so many each.
const OBJECTS: u64 = 20_000;

/// Prints the times of nodes of 20 objects and of 20,000.
fn main(rt: HostRuntime) -> ExitCode {
    match run(&rt) {
        Ok(()) => ExitCode::SUCCESS,
        Err(_) => ExitCode::FAILURE,
    }
}

fn run(rt: &HostRuntime) -> Result<(), Failure> {
    for count in [20u64, OBJECTS] {
        let opening = opening(rt.alloc(), count)?;
        let mut times = Times::new();
        for _node in 0..OBJECTS / count {
            measure(rt, &opening, count, &mut times)?;
        }
        let (opened, stepped) = (times.opened / 1_000, times.stepped / 1_000);
        println!(rt; "nodes of {count} objects: {OBJECTS} open in {opened} us, and are asked for and granted in {stepped} us")?;
    }
    Ok(())
}
""",
    "src/births.rt": """//! What a store of so many objects opens with.
ghost use Rattle.std.specs.Prelude.{◌≡◌, ◌<◌, ◌≤◌, IfOk};
ghost use Rattle.nodes.specs.Born.{born, all_born};

use bmx_types::{Birth, Births, BunchNo, Items, Name, NoMemory, NodeNo, Opening, Val};
use std::alloc::Global;

/// How many fields each object has.
const FIELDS: usize = 32;

/// Two nodes, and so many objects of null fields in one bunch.
pub fn opening(alloc: Global, count: u64) -> Result<Opening, NoMemory>
    requires some { 0 < count }
    requires few { count ≤ 320000 }
    ensures { IfOk result (λ o. o.births ≡ all_born count) }
{
    Ok(Opening {
        nodes: 2,
        limit: 4_096,
        births: births(alloc, count)?,
    })
}

/// So many objects.
fn births(alloc: Global, count: u64) -> Result<Births, NoMemory>
    requires { count ≤ 320000 }
    ensures { IfOk result (λ births. births ≡ all_born count) }
{
    let mut births = Items::new(alloc);
    for i in 0..count {
        births.push(birth(alloc, i)?)?;
    }
    Ok(births)
}

/// The object of a number, from 0.
fn birth(alloc: Global, i: u64) -> Result<Birth, NoMemory>
    requires { i < 320000 }
    ensures { IfOk result (λ birth. birth ≡ born i) }
{
    let owner = NodeNo::new(0).unwrap();
    let fields = Vec::from_elem(alloc, Val::Null, FIELDS)?;
    Ok(Birth {
        name: Name::new(owner, i + 1).unwrap(),
        bunch: BunchNo::new(0).unwrap(),
        fields: Items::from_vec(fields),
    })
}
""",
    "src/rounds.rt": """//! A node that opens, and is asked for each of its objects.
ghost use Rattle.std.specs.Prelude.{◌≡◌, ◌<◌, ◌≤◌};
ghost use Rattle.bmx_node.specs.Seen.{FitsInput};

use crate::failures::Failure;
use bmx_msg::{Letter, Msg};
use bmx_node::Node;
use bmx_protocol::Input;
use bmx_types::{Name, NodeNo, Opening};
use std::time::Instant;

/// From this clock on a node makes no step.
const LAST_CLOCK: u64 = 1 << 55;

/// How long nodes took to open, and to be asked for their objects, in nanoseconds.
#[derive(Clone, Copy)]
pub struct Times {
    pub opened: u128,
    pub stepped: u128,
}

impl Times {
    /// No time.
    pub fn new() -> Times {
        Times {
            opened: 0,
            stepped: 0,
        }
    }
}

/// Opens a node of so many objects and has node 1 ask for each; adds the times that both took.
pub fn measure(
    rt: &HostRuntime,
    opening: &Opening,
    count: u64,
    times: &mut Times,
) -> Result<(), Failure>
    requires { 0 < opening.now.nodes }
{
    let owner = NodeNo::new(0).unwrap();
    let start = Instant::now(rt)?;
    let mut node = Node::open(rt.alloc(), owner, opening)?;
    times.opened = times.opened.saturating_add(start.elapsed(rt)?.as_nanos());
    let start = Instant::now(rt)?;
    for i in 1..count {
        ask(&mut node, i)?;
    }
    times.stepped = times.stepped.saturating_add(start.elapsed(rt)?.as_nanos());
    Ok(())
}

/// Node 1 asks to read the object of a number, and is granted that.
fn ask(node: &mut Node, i: u64) -> Result<(), Failure> {
    let (Some(owner), Some(from)) = (NodeNo::new(0), NodeNo::new(1)) else {
        return Err(Failure::Stopped);
    };
    let Some(name) = Name::new(owner, i) else {
        return Err(Failure::Stopped);
    };
    let msg = Msg::ReadReq { name, asker: from };
    let letter = Letter {
        seq: i,
        stamp: i,
        msg,
    };
    let asked = letters(node, &Input::Take { from, letter })?;
    let granted = letters(node, &Input::Serve(name))?;
    if asked == 0 && granted == 1 {
        Ok(())
    } else {
        Err(Failure::Stopped)
    }
}

/// How many letters come of a step.
fn letters(node: &mut Node, input: &Input) -> Result<usize, Failure>
    requires { FitsInput node.old.holdings.store.bunches input.now }
{
    if node.clock() >= LAST_CLOCK {
        return Err(Failure::Stopped);
    }
    let done = node.step(input)?;
    Ok(done.letters.len())
}
""",
    "src/failures.rt": """//! What can go wrong.
ghost use Rattle.std.specs.Prelude.{◌≡◌};
ghost use Rattle.nodes.specs.declared.failures.Failure.TheVariants as failure;

use bmx_types::NoMemory;
use std::io;

/// Why the program can't go on.
#[derive(Clone, Copy, Debug, PartialEq, Eq)]
pub enum Failure {
    NoMemory,
    /// The clock can't be read, or the text not be written.
    Outside,
    /// A node has made too many steps, or didn't grant what it was asked for.
    Stopped,
}

impl From<NoMemory> for Failure {
    ghost from_gives = { λ _ e. e ≡ failure.NoMemory };

    fn from(_error: NoMemory) -> Failure {
        Failure::NoMemory
    }
}

impl From<io::Error> for Failure {
    ghost from_gives = { λ _ e. e ≡ failure.Outside };

    fn from(_error: io::Error) -> Failure {
        Failure::Outside
    }
}
""",
    "specs/Lib.antt": """pub mod Born
""",
    "specs/Born.antt": """-- What a store of so many objects opens with.
use Rattle.std.specs.Prelude.{ℕ, ◌+◌, List, [], ◌∷◌, ◌++◌, replicate}
use Rattle.std.proofs.Common.{zero, suc}
use Rattle.bmx_types.specs.declared.values.Val.TheVariants as val
use Rattle.bmx_types.specs.declared.openings.Birth.{Birth}

-- the object of a number, with null fields
abbrev pub born : ℕ → Birth
born i = record { name = i + 1; bunch = 0; fields = replicate 32 val.Null }

-- the first so many objects
abbrev pub all_born : ℕ → List Birth
all_born zero = []
all_born (suc i) = all_born i ++ born i ∷ []
""",
    "proofs/Lib.antt": """pub mod Opened
""",
    "proofs/Opened.antt": """-- So many objects are what a store opens with.
use Rattle.std.proofs.Common.{◌≡◌, ◌⊎◌, inl, inr, ℕ, ◌+◌, ◌<◌, ◌≤◌, zero, suc, arith, refl, sym, ap, subst, ◌∙◌, List, [], ◌∷◌, ◌++◌, length, length-append, max, replicate}
use Rattle.std.specs.Prelude.{Some, slice_get, Contains}
use Rattle.std.proofs.lemmas.List.{get_or-replicate}
use Rattle.std.proofs.lemmas.Option.{slice_get-get_or}
use Rattle.bmx_types.specs.Openings.{IsOpening, bunches_of}
use Rattle.bmx_types.specs.declared.openings.Birth.{Birth}
use Rattle.bmx_types.specs.declared.values.Val.TheVariants as val
use Rattle.nodes.specs.Born.{born, all_born}

length_born : (n : ℕ) → length (all_born n) ≡ n
length_born zero = refl
length_born (suc n) = (let more : length (all_born n ++ born n ∷ []) ≡ length (all_born n) + 1 = length-append (all_born n) (born n ∷ []) in omega (arith, more, length_born n))

bunches_append : (births : List Birth) (b : Birth) → bunches_of (births ++ b ∷ []) ≡ max (bunches_of births) (b.bunch + 1)
bunches_append [] b = grind arith
bunches_append (c ∷ births) b = ap (max (c.bunch + 1)) (bunches_append births b) ∙ grind arith

bunches_most : (n : ℕ) → bunches_of (all_born n) ≤ 1
bunches_most zero = omega arith
bunches_most (suc n) = (let more : bunches_of (all_born n ++ born n ∷ []) ≡ max (bunches_of (all_born n)) 1 = bunches_append (all_born n) (born n) in omega (arith, more, bunches_most n))

bunches_some : (n : ℕ) → 0 < n → bunches_of (all_born n) ≡ 1
bunches_some zero some = absurd (omega (arith, some))
bunches_some (suc n) some = (let more : bunches_of (all_born n ++ born n ∷ []) ≡ max (bunches_of (all_born n)) 1 = bunches_append (all_born n) (born n) in omega (arith, more, bunches_most n))

get_append : (births : List Birth) (last : Birth) (i : ℕ) (b : Birth) → slice_get (births ++ last ∷ []) i ≡ Some b →
    (slice_get births i ≡ Some b) ⊎ ((i ≡ length births) × (b ≡ last))
get_append [] last zero b h = inr (refl, cc)
get_append [] last (suc i) b h = absurd cc
get_append (c ∷ births) last zero b h = inl h
get_append (c ∷ births) last (suc i) b h = by_case (get_append births last i b h)
  where
    by_case : (slice_get births i ≡ Some b) ⊎ ((i ≡ length births) × (b ≡ last)) → (slice_get births i ≡ Some b) ⊎ ((suc i ≡ suc (length births)) × (b ≡ last))
    by_case (inl e) = inl e
    by_case (inr e) = inr (ap suc e.0, e.1)

-- each is the object of its number
born_at : (n i : ℕ) (b : Birth) → slice_get (all_born n) i ≡ Some b → b ≡ born i
born_at zero i b h = absurd cc
born_at (suc n) i b h = by_case (born_at n i b) (get_append (all_born n) (born n) i b h)
  where
    by_case : (slice_get (all_born n) i ≡ Some b → b ≡ born i) → (slice_get (all_born n) i ≡ Some b) ⊎ ((i ≡ length (all_born n)) × (b ≡ born n)) → b ≡ born i
    by_case before (inl e) = before e
    by_case before (inr e) = (let is : i ≡ n = e.0 ∙ length_born n in e.1 ∙ ap born (sym is))

contained : (n : ℕ) (b : Birth) → Contains (all_born n) b → (k : ℕ) × (b ≡ born k)
contained n b there = (there.0, born_at n there.0 b (slice_get-get_or (all_born n) there.0 b there.1 ∙ ap Some there.2))

no_reference : (name : ℕ) → Contains (replicate 32 val.Null) (val.Ref name) → ⊥
no_reference name there = (let both : val.Null ≡ val.Ref name = sym (get_or-replicate 32 there.0 val.Null (val.Ref name) there.1) ∙ there.2 in absurd cc)

first : (i m : ℕ) (b : Birth) → m ≡ 1 → i < m → b ≡ born i → b.bunch ≡ i
first i m b one below is = (let none : i ≡ 0 = omega (arith, one, below) in ap (λ (c : Birth). c.bunch) is ∙ sym none)

pub opens : (n : ℕ) → 0 < n → n ≤ 320000 → IsOpening 2 4096 (all_born n)
opens n some few = record {
  a_node = omega arith;
  few_nodes = omega arith;
  a_segment = omega arith;
  few_segments = omega arith;
  born = record {
    few = omega (arith, length_born n, few);
    named = λ i b h. ap (λ (c : Birth). c.name) (born_at n i b h);
    some = omega (arith, bunches_some n some);
    bunches = omega (arith, bunches_some n some);
    anchors = omega (arith, bunches_some n some, length_born n, some);
    first = λ i b below h. first i (bunches_of (all_born n)) b (bunches_some n some) below (born_at n i b h);
    wide = λ i b below h. ap (λ (c : Birth). length c.fields) (born_at n i b h);
    sizes = λ b there. by_size b (contained n b there);
    closed = λ b name there refers. absurd (no_reference name (subst (λ (c : Birth). Contains c.fields (val.Ref name)) (contained n b there).1 refers));
  };
}
  where
    by_size : (b : Birth) → (k : ℕ) × (b ≡ born k) → length b.fields ≤ 32
    by_size b t = (let wide : length b.fields ≡ 32 = ap (λ (c : Birth). length c.fields) t.1 in omega (arith, wide))
""",
    "proofs/births/births/Invariants.antt": """use Rattle.std.proofs.Common.{◌≡◌}
use Rattle.nodes.specs.Born.{all_born}
use Rattle.nodes.proofs.births.births.Given as goal

abbrev pub invariant-loop-i : goal.invariant-loop-i
invariant-loop-i l = l.births ≡ all_born l.i
""",
    "proofs/births/opening/Answers.antt": """use Rattle.std.proofs.Common.{ℕ, List, arith, subst, sym}
use Rattle.bmx_types.specs.Openings.{IsOpening}
use Rattle.bmx_types.specs.declared.openings.Birth.{Birth}
use Rattle.nodes.proofs.Opened.{opens}
use Rattle.nodes.proofs.births.opening.Goals as goal

pub invariant_of-result : goal.invariant_of-result
invariant_of-result c = record {
  opened = subst (λ (births : List Birth). IsOpening 2 4096 births) (sym c.in_ok-births.ensures) (opens c.args.count c.requires.some c.requires.few);
}
""",
}


def needed(lines, crate):
    """The crates of the repository on which a crate stands, and itself."""
    found = {crate}
    for other in lines.get(crate, []):
        if other in lines:
            found |= needed(lines, other)
    return found


def main():
    root = os.path.dirname(os.path.dirname(os.path.abspath(__file__)))
    listed = [line.split(":") for line in open(f"{root}/crates.txt") if ":" in line]
    lines = {name: deps.split() for name, deps in listed}
    crates = needed(lines, "bmx_node")
    with tempfile.TemporaryDirectory() as folder:
        for crate in crates:
            for part in ["src", "specs", "proofs"]:
                if os.path.isdir(f"{root}/crates/{crate}/{part}"):
                    shutil.copytree(f"{root}/crates/{crate}/{part}", f"{folder}/crates/{crate}/{part}")
        with open(f"{folder}/crates.txt", "w") as file:
            for name, deps in listed:
                if name in crates:
                    file.write(f"{name}:{deps}")
            file.write(f"nodes: {' '.join(lines['bmx_node'])} bmx_node\n")
        for path, text in FILES.items():
            place = f"{folder}/crates/nodes/{path}"
            os.makedirs(os.path.dirname(place), exist_ok=True)
            with open(place, "w") as file:
                file.write(text)
        run = subprocess.run(["rt", "run"], cwd=f"{folder}/crates/nodes", stdout=subprocess.PIPE, text=True, check=True)
        print("".join(line for line in run.stdout.splitlines(True) if line.startswith("nodes of")), end="")


main()
