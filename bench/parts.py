#!/usr/bin/env python3
"""Counts instructions for each key of bmx_ilist and each name that bmx_mark marks, at 100 and at 100,000 of them,
and times `keep` and `clean` of bmx_inter over ten pairs beside many of another bunch.

  bench/parts.py

Puts a small program over both crates into a folder of its own, proves and builds it with `rt run`, and runs it under
callgrind. A count is that of a run with so many, less that of a run which leaves the step out, for each key or name.
The times are those of a second program, run with `rt try` before any proof and with every test of the language in
place: they tell how they grow, and not how long a built program takes. `bench/parts.py pairs` takes them alone.
"""
import os
import re
import shutil
import subprocess
import sys
import tempfile

CRATES = ["bmx_types", "bmx_ilist", "bmx_mark"]

# What is counted, the work of the program that does it, and the work that does all but it.
STEPS = [
    ("a key is made and put on a list", "made", "nothing"),
    ("a key goes to another list", "moved", "made"),
    ("a key is taken out and ended", "ended", "moved"),
    ("room for a name is made", "room", "nothing"),
    ("a name is marked, in a chain", "chain", "room"),
    ("a name is marked, 32 referred to by one", "fan", "room"),
]

FEW, MANY = 100, 100_000

FILES = {
    "src/main.rt": """//! Makes, moves and ends keys, or marks names: so many of each, for a count of instructions.
#![tactic(auto)]

mod keys;
mod names;

use names::Tree;
use std::env;
use std::test::Fail;

/// Does what the first word says, for so many as the second one says.
fn main(rt: HostRuntime) -> Result<(), Fail> {
    let mut words = env::args(&rt)?.skip(1);
    let work = words.next().ok_or("no work")?;
    let count = words.next().ok_or("no count")?.parse::<u32>()?;
    let chain = Tree::new(count, 1).ok_or("no tree")?;
    let fan = Tree::new(count, 32).ok_or("no tree")?;
    match work.as_str() {
        "nothing" => {}
        "made" => keys::made(rt.alloc(), count).map(|_| ())?,
        "moved" => keys::moved(rt.alloc(), count).map(|_| ())?,
        "ended" => keys::ended(rt.alloc(), count)?,
        "room" => names::begun(rt.alloc(), &chain).map(|_| ())?,
        "chain" => names::marked(rt.alloc(), &chain)?,
        "fan" => names::marked(rt.alloc(), &fan)?,
        _ => return Err("no such work".into()),
    }
    Ok(())
}
""",
    "src/keys.rt": """ghost use Rattle.std.specs.Prelude.{◌≡◌, length, IfOk};

use bmx_ilist::{Lists, NoMemory};
use std::alloc::Global;

/// So many keys, made and put on list 0.
pub fn made(alloc: Global, count: u32) -> Result<Lists, NoMemory>
    ensures { IfOk result (λ s. length s.lists ≡ 2) }
{
    let mut lists = Lists::new(alloc, 2)?;
    'keys: for _ in 0..count {
        make(&mut lists)?;
    }
    Ok(lists)
}

/// So many keys, made and then moved to list 1.
pub fn moved(alloc: Global, count: u32) -> Result<Lists, NoMemory>
    ensures { IfOk result (λ s. length s.lists ≡ 2) }
{
    let mut lists = made(alloc, count)?;
    'keys: for _ in 0..count {
        shift(&mut lists);
    }
    Ok(lists)
}

/// So many keys, made and moved, and then ended.
pub fn ended(alloc: Global, count: u32) -> Result<(), NoMemory> {
    let mut lists = moved(alloc, count)?;
    'keys: for _ in 0..count {
        end(&mut lists);
    }
    Ok(())
}

/// Makes a key and puts it on list 0.
fn make(lists: &mut Lists) -> Result<(), NoMemory>
    requires { length lists.old.lists ≡ 2 }
    ensures { length lists.new.lists ≡ 2 }
{
    let key = lists.add()?;
    lists.push_back(0, key);
    Ok(())
}

/// Moves the first key of list 0 behind those of list 1.
fn shift(lists: &mut Lists)
    requires { length lists.old.lists ≡ 2 }
    ensures { length lists.new.lists ≡ 2 }
{
    if let Some(key) = lists.first(0) {
        lists.move_to(1, key);
    }
}

/// Ends the first key of list 1.
fn end(lists: &mut Lists)
    requires { length lists.old.lists ≡ 2 }
    ensures { length lists.new.lists ≡ 2 }
{
    if let Some(key) = lists.first(1) {
        lists.unlink(key);
        lists.remove(key);
    }
}
""",
    "src/names.rt": """ghost use Rattle.std.specs.Prelude.{◌≡◌, [], ◌∷◌};
ghost use Rattle.parts.specs.Trees.{target_in};

use bmx_mark::{Edges, Mark};
use bmx_types::{BunchNo, Name, NoMemory, NodeNo};
use std::alloc::Global;

/// The most fields that an object has.
const MOST_FIELDS: u32 = 32;

/// Names 1 to `count` of a node. Name 1 is the root, and each refers to the next `width` that none before it
/// refers to: with a width of 1 a chain.
#[derive(Drop)]
pub struct Tree {
    node: NodeNo,
    root: Name,
    width: u8,
    count: u32,
}

impl Tree {
    /// So many names, each of which refers to so many.
    pub fn new(count: u32, width: u8) -> Option<Tree> {
        let node = NodeNo::new(0)?;
        Some(Tree {
            node,
            root: Name::new(node, 1)?,
            width,
            count,
        })
    }
}

impl Edges for Tree {
    ghost roots = { λ t _. t.root ∷ [] };

    ghost target_of = { λ t name i. target_in t.node t.width t.count name i };

    fn root(&self, _bunch: BunchNo, i: u64) -> Option<Name> {
        if i == 0 { Some(self.root) } else { None }
    }

    fn target(&self, name: Name, i: u8) -> Option<Name> {
        let count = name.count();
        if i >= 32 || i >= self.width || count > self.count as u64 {
            return None;
        }
        let target = (count - 1) * self.width as u64 + 2 + i as u64;
        if target > self.count as u64 {
            return None;
        }
        Name::new(self.node, target)
    }
}

/// A mark that has room for so many names and has begun at the root.
pub fn begun(alloc: Global, tree: &Tree) -> Result<Mark, NoMemory> {
    let Some(bunch) = BunchNo::new(0) else {
        return Err(NoMemory);
    };
    let mut mark = Mark::new(alloc)?;
    mark.reserve(tree.count)?;
    mark.begin(tree, bunch)?;
    Ok(mark)
}

/// Marks the whole tree.
pub fn marked(alloc: Global, tree: &Tree) -> Result<(), NoMemory> {
    let mut mark = begun(alloc, tree)?;
    for _ in 0..tree.count {
        step(&mut mark, tree)?;
    }
    Ok(())
}

/// A step of a mark that isn't done, with room for what it finds.
fn step(mark: &mut Mark, tree: &Tree) -> Result<(), NoMemory> {
    mark.reserve(MOST_FIELDS)?;
    if !mark.is_done() {
        mark.step(tree);
    }
    Ok(())
}
""",
    "specs/Lib.antt": """pub mod Trees
""",
    "specs/Trees.antt": """-- Trees of names: what each refers to.
use Rattle.std.specs.Prelude.{ℕ, ◌+◌, ◌*◌, ◌-◌, ◌&&◌, nat_lt, nat_le, if◌then◌else◌, Option, Some, None}
use Rattle.bmx_types.specs.Words.{name_word, count_of}

-- the count of the name to which field i of a name refers
abbrev pub child : ℕ → ℕ → ℕ → ℕ
child width name i = (count_of name - 1) * width + 2 + i

-- that name, where the tree has so many
abbrev pub target_in : ℕ → ℕ → ℕ → ℕ → ℕ → Option ℕ
target_in node width count name i = if nat_lt i 32 && nat_lt i width && nat_le (count_of name) count && nat_le (child width name i) count then Some (name_word node (child width name i)) else None
""",
    "proofs/Lib.antt": """pub mod Windows
""",
    "proofs/Windows.antt": """-- Rising names that all lie within 32 of one another are at most 32.
use Rattle.std.proofs.Common.{◌≡◌, ℕ, suc, ◌+◌, ◌<◌, ◌≤◌, Bool, true, false, cond, ◌||◌, ◌&&◌, ◌==◌, nat_lt, nat_le, List, [], ◌∷◌, length, Some, None, refl, ap, arith}
use Rattle.std.proofs.lemmas.Bool.{eq-eqb, ltb-true}
use Rattle.std.proofs.lemmas.List.Kept.{AllPairs-from_increasing}
use Rattle.std.specs.List.{AllPairs}
use Rattle.bmx_mark.specs.Marks.{Marking, has_name, AreNewTargets}
use Rattle.bmx_mark.proofs.Reaching.{right}
use Rattle.bmx_types.specs.Words.{name_word, count_of}
use Rattle.parts.specs.Trees.{child, target_in}

picked : (b : Bool) (a y : ℕ) → cond b (Some a) None ≡ Some y → (b ≡ true) × (a ≡ y)
picked true a y e = let s : a ≡ y = cc in (refl, s)
picked false a y e = absurd (cc)

here : (y : ℕ) (ys : List ℕ) → has_name (y ∷ ys) y ≡ true
here y ys = ap (λ b. b || has_name ys y) (eq-eqb y y refl)

-- rising numbers below a bound are no more than fit from the first on
below : (high a : ℕ) (rest : List ℕ) → AllPairs (λ x y. x < y) (a ∷ rest) → ((y : ℕ) → has_name (a ∷ rest) y ≡ true → y < high) → length (a ∷ rest) + a ≤ high
below high a [] up less = let l : a < high = less a (here a []) in omega (arith, l)
below high a (b ∷ rest) up less =
    let l : a < b = up 0 (suc 0) b (omega arith) (omega arith) in
    let r : length (b ∷ rest) + b ≤ high = below high b rest (λ i j d lt inside. up (suc i) (suc j) d (omega arith) (omega arith)) (λ y h. less y (right (a == y) _ h)) in
    omega (arith, l, r)

first_of_four : (a b c d : Bool) → (a && b && c && d) ≡ true → a ≡ true
first_of_four true b c d h = refl
first_of_four false b c d h = absurd (let t : false ≡ true = h in cc)

-- a target lies within 32 of the first
within : (node width count name i y : ℕ) → target_in node width count name i ≡ Some y → (name_word node (child width name 0) ≤ y) × (y < name_word node (child width name 0) + 32)
within node width count name i y e =
    let there : Bool = nat_lt i 32 && nat_lt i width && nat_le (count_of name) count && nat_le (child width name i) count in
    let p = picked there (name_word node (child width name i)) y e in
    let few : i < 32 = ltb-true i 32 (first_of_four (nat_lt i 32) (nat_lt i width) (nat_le (count_of name) count) (nat_le (child width name i) count) p.0) in
    let is : name_word node (child width name i) ≡ y = p.1 in
    (omega (arith, is), omega (arith, is, few))

pub few_targets : (node width count name : ℕ) (m : Marking) (names : List ℕ) → AreNewTargets (λ x i. target_in node width count x i) m name names → length names ≤ 32
few_targets node width count name m [] t = omega arith
few_targets node width count name m (a ∷ rest) t =
    let low = name_word node (child width name 0) in
    let fits = λ (y : ℕ) (h : has_name (a ∷ rest) y ≡ true). let at = (t.each y h).0 in within node width count name at.0 y at.1 in
    let first : low ≤ a = (fits a (here a rest)).0 in
    let all : length (a ∷ rest) + a ≤ low + 32 = below (low + 32) a rest (AllPairs-from_increasing (a ∷ rest) t.rising) (λ y h. (fits y h).1) in
    omega (arith, first, all)
""",
    "proofs/keys/end/Answers.antt": """use Rattle.std.proofs.Common.{ap, ◌∙◌}
use Rattle.bmx_ilist.specs.Sequences.{is_in_list}
use Rattle.bmx_ilist.proofs.Steps.{unlinked_loose}
use Rattle.parts.proofs.keys.end.Goals as goal

pub remove-requires-clause-loose : goal.remove-requires-clause-loose
remove-requires-clause-loose c = ap (λ l. is_in_list l c.in-Some.key) c.unlink.ensures.lists ∙ unlinked_loose c.in-Some.key c.args.lists.now.lists
""",
    "proofs/keys/make/Answers.antt": """use Rattle.std.proofs.Common.{ap, ◌∙◌}
use Rattle.std.specs.FinSet as set
use Rattle.bmx_ilist.proofs.Calls.{inserted_lives}
use Rattle.parts.proofs.keys.make.Goals as goal

pub push_back-requires-clause-live : goal.push_back-requires-clause-live
push_back-requires-clause-live c = ap (λ s. set.contains s c.in_ok-key.key) c.in_ok-key.ensures.live ∙ inserted_lives c.args.lists.now.live c.in_ok-key.key
""",
    "proofs/keys/made/Invariants.antt": """use Rattle.std.proofs.Common.{◌≡◌, length}
use Rattle.parts.proofs.keys.made.Given as goal

abbrev pub invariant-keys : goal.invariant-keys
invariant-keys l = length l.lists.lists ≡ 2
""",
    "proofs/keys/moved/Invariants.antt": """use Rattle.std.proofs.Common.{◌≡◌, length}
use Rattle.parts.proofs.keys.moved.Given as goal

abbrev pub invariant-keys : goal.invariant-keys
invariant-keys l = length l.lists.lists ≡ 2
""",
    "proofs/keys/ended/Invariants.antt": """use Rattle.std.proofs.Common.{◌≡◌, length}
use Rattle.parts.proofs.keys.ended.Given as goal

abbrev pub invariant-keys : goal.invariant-keys
invariant-keys l = length l.lists.lists ≡ 2
""",
    "proofs/names/step/Answers.antt": """use Rattle.std.proofs.Common.{◌≡◌, ◌≤◌, max, length, ap, arith}
use Rattle.bmx_mark.specs.Marks.{Marking, next_grey}
use Rattle.parts.proofs.Windows.{few_targets}
use Rattle.parts.proofs.names.step.Goals as goal

pub step-requires-clause-room : goal.step-requires-clause-room
step-requires-clause-room c =
    let t = c.args.tree.now in
    let m = c.reserve.new.self in
    let room : m.spare ≡ max c.args.mark.now.spare 32 = ap (λ (v : Marking). v.spare) c.in_ok-reserve.ensures.ok in
    λ names n.
    let few : length names ≤ 32 = few_targets t.node t.width t.count (next_grey m) m names n in
    omega (arith, few, room)
""",
}

PAIR_CRATES = ["bmx_types", "bmx_ilist", "bmx_shelves", "bmx_mark", "bmx_inter"]

PAIRS = """#![tactic(auto)]

ghost use Rattle.std.specs.Prelude.{true};

use bmx_inter::Inter;
use bmx_mark::Keeps;
use bmx_types::{BunchNo, Name, NodeNo, Pairs};
use std::alloc::Global;
use std::test::Fail;
use std::time::Instant;

/// Keeps everything.
#[derive(Drop)]
struct Whole;

impl Keeps for Whole {
    ghost is_kept = { λ _ _. true };

    ghost is_held = { λ _ _ _. true };

    fn kept(&self, _name: Name) -> bool {
        true
    }

    fn holds(&self, _source: Name, _target: Name) -> bool {
        true
    }
}

/// So many references of bunch 1, and ten of bunch 0 among them.
fn filled(alloc: Global, others: u64) -> Result<Inter, Fail> {
    let node = NodeNo::new(0).ok_or("node")?;
    let few = BunchNo::new(0).ok_or("bunch")?;
    let many = BunchNo::new(1).ok_or("bunch")?;
    let target = Name::new(node, 1).ok_or("name")?;
    let mut inter = Inter::new(alloc);
    for count in 1..others + 1 {
        inter.reserve(1)?;
        let source = Name::new(node, 2 * count).ok_or("name")?;
        inter.pair(source, many, target, 1);
    }
    for k in 0..10 {
        inter.reserve(1)?;
        let source = Name::new(node, k * (others / 5) + 1).ok_or("name")?;
        inter.pair(source, few, target, 1);
    }
    Ok(inter)
}

fn main(rt: HostRuntime) -> Result<(), Fail> {
    let none = Pairs::new(rt.alloc());
    let few = BunchNo::new(0).ok_or("bunch")?;
    for others in [100u64, 1_000, 10_000, 100_000] {
        let mut inter = filled(rt.alloc(), others)?;
        let start = Instant::now(&rt)?;
        for _ in 0..100 {
            inter.keep(few, &Whole);
        }
        let kept = start.elapsed(&rt)?.as_nanos() / 100_000;
        let start = Instant::now(&rt)?;
        let gone = inter.clean(few, 1, &none);
        let cleaned = start.elapsed(&rt)?.as_nanos() / 1_000;
        let start = Instant::now(&rt)?;
        for i in 0..100 {
            let _ = inter.stub(i * (others / 100));
        }
        let read = start.elapsed(&rt)?.as_nanos() / 100_000;
        println!(rt; "10 pairs beside {others}: keep, all stay {kept} us; clean, {gone} go {cleaned} us; the i-th {read} us")?;
    }
    Ok(())
}
"""


def pairs():
    """Runs the program over bmx_inter."""
    root = os.path.dirname(os.path.dirname(os.path.abspath(__file__)))
    lines = [line for line in open(f"{root}/crates.txt") if line.split(":")[0] in PAIR_CRATES]
    with tempfile.TemporaryDirectory() as folder:
        for crate in PAIR_CRATES:
            shutil.copytree(f"{root}/crates/{crate}", f"{folder}/crates/{crate}", ignore=shutil.ignore_patterns("out"))
        os.makedirs(f"{folder}/crates/pairs/src")
        with open(f"{folder}/crates.txt", "w") as file:
            file.write("".join(lines) + "pairs: " + " ".join(PAIR_CRATES) + "\n")
        with open(f"{folder}/crates/pairs/src/main.rt", "w") as file:
            file.write(PAIRS)
        ran = subprocess.run(["rt", "try"], cwd=f"{folder}/crates/pairs", stdout=subprocess.PIPE, stderr=subprocess.STDOUT)
        print(ran.stdout.decode(), end="")


def build(folder):
    """Writes the program over the crates into a folder, and builds it there."""
    root = os.path.dirname(os.path.dirname(os.path.abspath(__file__)))
    lines = [line for line in open(f"{root}/crates.txt") if line.split(":")[0] in CRATES]
    for crate in CRATES:
        for part in ["src", "specs", "proofs"]:
            if os.path.isdir(f"{root}/crates/{crate}/{part}"):
                shutil.copytree(f"{root}/crates/{crate}/{part}", f"{folder}/crates/{crate}/{part}")
    with open(f"{folder}/crates.txt", "w") as file:
        file.write("".join(lines) + "parts: bmx_types bmx_ilist bmx_mark\n")
    for name, text in FILES.items():
        os.makedirs(os.path.dirname(f"{folder}/crates/parts/{name}"), exist_ok=True)
        with open(f"{folder}/crates/parts/{name}", "w") as file:
            file.write(text)
    ran = subprocess.run(["rt", "run", "--", "nothing", "0"], cwd=f"{folder}/crates/parts", stdout=subprocess.PIPE, stderr=subprocess.STDOUT)
    if ran.returncode != 0:
        raise SystemExit(ran.stdout.decode())
    return f"{folder}/crates/parts/out/parts"


def instructions(program, work, count):
    """Counts the instructions of one run."""
    words = ["valgrind", "--tool=callgrind", "--callgrind-out-file=/dev/null", program, work, str(count)]
    ran = subprocess.run(words, stdout=subprocess.DEVNULL, stderr=subprocess.PIPE, check=True)
    return int(re.search(rb"Collected : (\d+)", ran.stderr).group(1))


def main():
    with tempfile.TemporaryDirectory() as folder:
        program = build(folder)
        for told, work, without in STEPS:
            few, many = (
                (instructions(program, work, count) - instructions(program, without, count)) / count
                for count in (FEW, MANY)
            )
            print(f"{told}: {few:.0f} instructions each at {FEW:,}, {many:.0f} at {MANY:,}, ratio {many / few:.2f}")


if "pairs" not in sys.argv[1:]:
    main()
pairs()
