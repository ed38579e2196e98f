#!/bin/sh
# Prints what an insert into a pool of sets costs: 100 million inserts of random values below 100,000 into
# 20,000 sets, set by set in batches of 500 and one by one, four of five of them of values that are there.
# It builds a small program over a copy of the crates below, outside the repository; the first run proves
# them there.
set -eu
top=$(cd "$(dirname "$0")/.." && pwd)
folder=${1:-$(mktemp -d)}
for crate in jam_base set_pool; do
    mkdir -p "$folder/crates/$crate"
    for part in src specs proofs; do
        cp -r "$top/crates/$crate/$part" "$folder/crates/$crate/"
    done
done
grep -E '^(jam_base|set_pool):' "$top/crates.txt" > "$folder/crates.txt"
echo 'inserted: jam_base set_pool' >> "$folder/crates.txt"
mkdir -p "$folder/crates/inserted/src" "$folder/crates/inserted/proofs/main"
cat > "$folder/crates/inserted/src/main.rt" <<'RATTLE'
//! Inserts into the sets of a pool: argument 1 is how many sets there are, 2 how many inserts, 3 how many
//! of these one set takes before the next.
#![tactic(auto)]
ghost use Rattle.std.specs.Prelude.{◌≡◌, ◌<◌, length, OnOk};

use jam_base::{OutOfMemory, Steps};
use set_pool::SetPool;
use std::alloc::Global;
use std::env;
use std::io;
use std::marker::Brand;
use std::sync::ledger::{Blank, Ledger};

// The number after this one in a sequence that looks random.
fn after(seed: u64) -> u64 {
    seed.wrapping_mul(6_364_136_223_846_793_005)
        .wrapping_add(1_442_695_040_888_963_407)
}

// A value below 100,000: of four times as many inserts as there are new values, most find theirs there.
fn value_of(seed: u64, set: u32) -> u32
    ensures { result < 4294967295 }
{
    let pick = (seed >> 33) % 2_000;
    ((pick * 48_271 + set as u64 * 7_919) % 100_000) as u32
}

// How many of the inserts were of new values.
fn run<L: Ledger>(
    alloc: Global,
    blank: Blank,
    sets: u32,
    inserts: u64,
    batch: u64,
) -> Result<u64, OutOfMemory>
    requires name { blank.name ≡ L.name }
    requires parts { blank.parts ≡ L.parts }
    requires some { 0 < L.parts }
    requires sets { 0 < sets }
    requires batch { 0 < batch }
{
    let mut steps = Steps::<L>::new(blank);
    let mut pool = SetPool::new(alloc, sets)?;
    let mut seed = 1;
    let mut new = 0;
    for turn in 0..inserts {
        seed = after(seed);
        let set = (turn / batch % sets as u64) as u32;
        if pool.insert(set, value_of(seed, set), &mut steps)? && new < u64::MAX {
            new += 1;
        }
    }
    Ok(new)
}

fn main(rt: HostRuntime) -> io::Result<()> {
    let alloc = rt.alloc();
    let mut numbers = [20_000, 1_000, 1];
    let mut place = 0;
    for word in env::args(&rt)?.skip(1) {
        if place < 3 {
            numbers[place] = word.parse::<u64>().unwrap_or(1).max(1);
            place += 1;
        }
    }
    let sets = (numbers[0] % 4_294_967_295) as u32;
    match run::<Brand>(alloc, Blank::new(1), sets.max(1), numbers[1], numbers[2]) {
        Ok(new) => println!(rt; "{new} of {} inserts were new", numbers[1])?,
        Err(_) => println!(rt; "out of memory")?,
    }
    Ok(())
}
RATTLE
(cd "$folder/crates/inserted" && rt run)
cd "$folder"
python3 - <<'PYTHON'
import resource, subprocess

def measured(sets, inserts, batch):
    before = resource.getrusage(resource.RUSAGE_CHILDREN).ru_utime
    process = subprocess.Popen(["crates/inserted/out/inserted", str(sets), str(inserts), str(batch)], stdout=subprocess.PIPE, text=True)
    told, _ = process.communicate()
    seconds = resource.getrusage(resource.RUSAGE_CHILDREN).ru_utime - before
    memory = resource.getrusage(resource.RUSAGE_CHILDREN).ru_maxrss * 1024
    new = int(told.split()[0])
    print(f"{sets} sets, {inserts} inserts, {batch} a set: {told.strip()}, {seconds * 1e9 / inserts:.0f} ns an insert, {memory / max(new, 1):.1f} bytes a value")

measured(20_000, 10_000_000, 500)
measured(20_000, 100_000_000, 500)
measured(20_000, 100_000_000, 1)
PYTHON
