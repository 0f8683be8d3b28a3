#!/usr/bin/env python3
"""Times cleanings of entering records: ten records from one node beside many from another.

  bench/cleaning.py

Puts a small program over bmx_owner into a folder of its own and runs it with `rt try`, before any proof and
with every test of the language in place, so the times tell how they grow, and not how long a built program
takes.
"""
import os
import shutil
import subprocess
import tempfile

CRATES = ["bmx_types", "bmx_ilist", "bmx_shelves", "bmx_owner"]

MAIN = """#![tactic(auto)]

use bmx_owner::Records;
use bmx_types::{BunchNo, Name, Names, NodeNo};
use std::alloc::Global;
use std::test::Fail;
use std::time::Instant;

/// So many records of one node, and ten of another among them.
fn filled(alloc: Global, others: u64) -> Result<Records, Fail> {
    let home = NodeNo::new(0).ok_or("node")?;
    let bunch = BunchNo::new(0).ok_or("bunch")?;
    let many = NodeNo::new(1).ok_or("node")?;
    let few = NodeNo::new(2).ok_or("node")?;
    let mut records = Records::new(alloc);
    for count in 1..others + 1 {
        records.reserve(1)?;
        let name = Name::new(home, count).ok_or("name")?;
        records.give(name, bunch, many, 1);
    }
    for k in 0..10 {
        records.reserve(1)?;
        let name = Name::new(home, k * (others / 10) + 1).ok_or("name")?;
        records.give(name, bunch, few, 1);
    }
    Ok(records)
}

fn main(rt: HostRuntime) -> Result<(), Fail> {
    let none = Names::new(rt.alloc());
    let bunch = BunchNo::new(0).ok_or("bunch")?;
    let few = NodeNo::new(2).ok_or("node")?;
    for others in [100u64, 1_000, 10_000, 100_000] {
        let mut records = filled(rt.alloc(), others)?;
        let start = Instant::now(&rt)?;
        let mut gone = 0;
        for _ in 0..100 {
            gone += records.clean(bunch, few, 0, 0, &none);
        }
        let stay = start.elapsed(&rt)?.as_nanos() / 100_000;
        let start = Instant::now(&rt)?;
        gone += records.clean(bunch, few, 1, 1, &none);
        let go = start.elapsed(&rt)?.as_nanos() / 1_000;
        println!(rt; "10 records beside {others}: all stay {stay} us, {gone} go {go} us")?;
    }
    Ok(())
}
"""


def main():
    root = os.path.dirname(os.path.dirname(os.path.abspath(__file__)))
    lines = [line for line in open(f"{root}/crates.txt") if line.split(":")[0] in CRATES]
    with tempfile.TemporaryDirectory() as folder:
        for crate in CRATES:
            for part in ["src", "specs", "proofs"]:
                if os.path.isdir(f"{root}/crates/{crate}/{part}"):
                    shutil.copytree(f"{root}/crates/{crate}/{part}", f"{folder}/crates/{crate}/{part}")
        with open(f"{folder}/crates.txt", "w") as file:
            file.write("".join(lines) + "cleaning: bmx_types bmx_owner\n")
        os.makedirs(f"{folder}/crates/cleaning/src")
        with open(f"{folder}/crates/cleaning/src/main.rt", "w") as file:
            file.write(MAIN)
        subprocess.run(["rt", "try"], cwd=f"{folder}/crates/cleaning", check=True)


main()
