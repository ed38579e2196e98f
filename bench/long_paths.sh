#!/bin/sh
# Makes two graphs of 1,000,000 call edges and prints how long `reach` and `Reach::path` of reach_path take
# over them, and the peak memory: a wide one, in which each function of 1,000 modules has ten calls, and a
# long one, in which each function calls the next. The program that is timed is made in a folder of its own;
# it tests the conditions of `reach` before the time begins, and is proved before it is built.
. "$(dirname "$0")/folder.sh"
git init -q .
mkdir -p crates/reach_bench/src crates/reach_bench/proofs/ascend crates/reach_bench/proofs/is_few
for crate in jam_base reach_path; do
    cp -r "$top/crates/$crate" crates/
    rm -rf "crates/$crate/out" "crates/$crate/must-fail"
done
cp "$top/HANDLES" .
printf 'jam_base: thiserror\nreach_path: jam_base\nreach_bench: reach_path jam_base\n' >crates.txt
cat >crates/reach_bench/src/main.rt <<'RATTLE'
#![tactic(auto)]

ghost use Rattle.std.specs.Prelude.{◌≡◌, ◌↔◌, ◌<◌, ◌^◌, IsTrue, All, sum};
ghost use Rattle.std.specs.List.Sorted.{IsStrictlySortedBy};
ghost use Rattle.jam_base.specs.Edges.{edge_order};
ghost use Rattle.reach_path.specs.Levels.{IsBetween, IsFunction};

use jam_base::{Edge, FunctionRef};
use reach_path::{Reach, reach};
use std::alloc::{AllocError, Global};
use std::test::Fail;
use std::time::Instant;

const EDGES: u32 = 1000000;

fn main(rt: HostRuntime) -> Result<(), Fail> {
    let alloc = rt.alloc();
    let functions = vec![in alloc; 100u32; 1000]?;
    let edges = wide(alloc)?;
    if !fit(functions.as_slice(), edges.as_slice()) {
        return Err("the edges don't fit".into());
    }
    let start = Instant::now(&rt)?;
    let reached = reach(alloc, functions.as_slice(), edges.as_slice(), 0)?;
    let time = start.elapsed(&rt)?.as_micros();
    println!(rt; "wide: {} of 100000 functions reachable in {time} us", reached.count())?;
    let functions = [EDGES + 1];
    let edges = long(alloc)?;
    if !fit(&functions, edges.as_slice()) {
        return Err("the edges don't fit".into());
    }
    let start = Instant::now(&rt)?;
    let reached = reach(alloc, &functions, edges.as_slice(), 0)?;
    let time = start.elapsed(&rt)?.as_micros();
    println!(rt; "long: {} functions reachable in {time} us", reached.count())?;
    let start = Instant::now(&rt)?;
    let length = length_of(alloc, &reached)?;
    let time = start.elapsed(&rt)?.as_micros();
    println!(rt; "long: a path of {length} edges in {time} us")?;
    Ok(())
}

fn length_of(alloc: Global, reached: &Reach) -> Result<usize, Fail> {
    let last = FunctionRef {
        module: 0,
        function: EDGES,
    };
    match reached.path(alloc, last)? {
        Some(path) => Ok(path.as_slice().len()),
        None => Err("no path".into()),
    }
}

fn wide(alloc: Global) -> Result<Vec<Edge>, AllocError> {
    let mut edges = Vec::new(alloc);
    for place in 0..EDGES {
        let module = place / 1000;
        let offset = place % 1000;
        let target = (module * 7 + offset * 13 + 1) % 1000;
        let function = (offset * 37 + offset / 100 + module) % 100;
        edges.push(call(module, offset % 100, offset, target, function))?;
    }
    Ok(edges)
}

fn long(alloc: Global) -> Result<Vec<Edge>, AllocError> {
    let mut edges = Vec::new(alloc);
    for place in 0..EDGES {
        edges.push(call(0, place, place, 0, place + 1))?;
    }
    Ok(edges)
}

fn call(module: u32, function: u32, offset: u32, to_module: u32, to_function: u32) -> Edge {
    Edge {
        caller: FunctionRef { module, function },
        offset,
        callee: FunctionRef {
            module: to_module,
            function: to_function,
        },
    }
}

// The conditions of `reach`, with module 0 as the entry.
fn fit(functions: &[u32], edges: &[Edge]) -> bool
    ensures sorted { IsTrue result → IsStrictlySortedBy edge_order edges.now }
    ensures between { IsTrue result → All (IsBetween functions.now) edges.now }
    ensures few { IsTrue result → sum functions.now < 2 ^ 32 }
    ensures entry { IsTrue result → IsFunction functions.now (record { «module» = 0; function = 0 }) }
{
    let body = FunctionRef {
        module: 0,
        function: 0,
    };
    if !ascend(edges) {
        return false;
    }
    if !edges.iter().all(|edge| is_between(functions, edge)) {
        return false;
    }
    if !is_few(functions) {
        return false;
    }
    is_function(functions, body)
}

fn ascend(edges: &[Edge]) -> bool
    ensures { IsTrue result → IsStrictlySortedBy edge_order edges.now }
{
    edges.is_sorted_by(|a, b| a.cmp(b).is_lt())
}

fn is_between(functions: &[u32], edge: &Edge) -> bool
    ensures { IsTrue result ↔ IsBetween functions.now edge.now }
{
    if !is_function(functions, edge.caller) {
        return false;
    }
    is_function(functions, edge.callee)
}

fn is_function(functions: &[u32], function: FunctionRef) -> bool
    ensures { IsTrue result ↔ IsFunction functions.now function }
{
    let module = function.module as usize;
    if module >= functions.len() {
        return false;
    }
    function.function < functions[module]
}

fn is_few(functions: &[u32]) -> bool
    ensures { IsTrue result → sum functions.now < 2 ^ 32 }
{
    let mut left = u32::MAX;
    for count in functions {
        if *count > left {
            return false;
        }
        left -= *count;
    }
    true
}
RATTLE
cat >crates/reach_bench/proofs/is_few/Invariants.antt <<'ANTT'
use Rattle.std.proofs.Common.{◌≡◌, ◌+◌, take, sum}
use Rattle.reach_bench.proofs.is_few.Given as goal

abbrev pub invariant-loop-count : goal.invariant-loop-count
invariant-loop-count l = l.left + sum (take l.count-index l.functions) ≡ 4294967295
ANTT
cat >crates/reach_bench/proofs/ascend/Answers.antt <<'ANTT'
use Rattle.std.proofs.Common.{rules, of_calls, ◌≡◌, ℕ, suc, ◌+◌, ◌<◌, Bool, true, false, IsTrue, List, [], ◌∷◌, length, get_or, refl, sym, subst, arith}
use Rattle.std.specs.declared.cmp.Ordering.{Ordering}
use Rattle.std.specs.declared.cmp.Ordering.TheVariants.{Less, Equal, Greater}
use Rattle.std.specs.Cmp.{IsTotalOrder, on_total, then_total, nat_cmp_total}
use Rattle.std.specs.List.{AllByRecursion, IsAllAdjacentAnswer}
use Rattle.std.specs.List.Sorted.{IsStrictlySortedBy}
use Rattle.std.specs.Ordering.{is_lt}
use Rattle.std.proofs.lemmas.Fn.{always_returns_same}
use Rattle.jam_base.specs.declared.edge.Edge.{Edge}
use Rattle.jam_base.specs.Edges.{edge_order}
use Rattle.reach_bench.proofs.ascend.Goals as goal

total : IsTotalOrder edge_order
total =
    then_total (on_total (λ e. e.caller.module) nat_cmp_total)
    (then_total (on_total (λ e. e.offset) nat_cmp_total)
    (then_total (on_total (λ e. e.callee.module) nat_cmp_total)
    (then_total (on_total (λ e. e.callee.function) nat_cmp_total) (on_total (λ e. e.caller.function) nat_cmp_total))))

is_less : (o : Ordering) → is_lt o ≡ true → o ≡ Less
is_less Less e = refl
is_less Equal e = absurd (let k : false ≡ true = e in cc)
is_less Greater e = absurd (let k : false ≡ true = e in cc)

below_all : (x y : Edge) (zs : List Edge) → edge_order x y ≡ Less → AllByRecursion (λ z. edge_order y z ≡ Less) zs → AllByRecursion (λ z. edge_order x z ≡ Less) zs
below_all x y [] h a = tt
below_all x y (z ∷ zs) h a = (total.trans x y z h a.0, below_all x y zs h a.1)

from_adjacent : (xs : List Edge) → ((k : ℕ) (d : Edge) → k + 1 < length xs → edge_order (get_or xs k d) (get_or xs (k + 1) d) ≡ Less) → IsStrictlySortedBy edge_order xs
unfolding IsStrictlySortedBy
from_adjacent [] h = tt
from_adjacent (x ∷ []) h = (tt, tt)
from_adjacent (x ∷ y ∷ zs) h =
    let first = h 0 x (omega arith) in
    let rest = from_adjacent (y ∷ zs) (λ k d lt. subst (λ n. edge_order (get_or (y ∷ zs) k d) (get_or (x ∷ y ∷ zs) n d) ≡ Less) (next k) (h (suc k) d (omega (arith, lt)))) in
    ((first, below_all x y zs first rest.0), rest)
  where
    next : (k : ℕ) → suc k + 1 ≡ suc (k + 1)
    next k = omega arith

by_test : (xs : List Edge) (r : Bool) → IsAllAdjacentAnswer (λ x y b. b ≡ is_lt (edge_order x y)) xs r → IsTrue r → IsStrictlySortedBy edge_order xs
by_test xs true h is = from_adjacent xs (λ k d lt. is_less (edge_order (get_or xs k d) (get_or xs (k + 1) d)) (sym (h k d lt)))
by_test xs false h is = absurd (let k : false ≡ true = is in cc)

pub returns : goal.returns
returns c is = by_test c.args.edges.now c.is_sorted_by.result (c.is_sorted_by.ensures.cases (λ x y. is_lt (edge_order x y)) (always_returns_same _ _ _ (λ a r f k. search (rules, of_calls)))) is
ANTT
cd crates/reach_bench
rt run >build.log 2>&1 || { cat build.log; exit 1; }
python3 - <<'PYTHON'
import resource, subprocess

print(subprocess.run(["out/reach_bench"], check=True, capture_output=True, text=True).stdout, end="")
peak = resource.getrusage(resource.RUSAGE_CHILDREN).ru_maxrss / 1024
print(f"peak memory with the edges: {peak:.0f} MB")
PYTHON
