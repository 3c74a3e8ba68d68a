#!/bin/sh
# Times the walks over lifetimes on large rings and on complete graphs.
# The program is made in a temporary folder, beside a copy of the crates, and is deleted with it.
set -eu

here=$(CDPATH='' cd -P -- "$(dirname -- "$0")" && pwd -P)
folder=$(mktemp -d)
trap 'rm -rf -- "$folder"' EXIT INT TERM

mkdir "$folder/crates"
sed -n -e '/^bridge_text:/p' -e '/^bridge_decl:/p' -e '/^hir_life:/p' "$here/../crates.txt" >"$folder/crates.txt"
echo 'walk_times: bridge_text bridge_decl hir_life smallvec sqlite_items anyhow' >>"$folder/crates.txt"
for crate in bridge_text bridge_decl hir_life; do
    mkdir "$folder/crates/$crate"
    for part in src specs proofs; do
        cp -R "$here/../crates/$crate/$part" "$folder/crates/$crate/"
    done
done
cd "$folder/crates"
mkdir -p walk_times/src
cd walk_times
cat >src/main.rt <<'PROGRAM'
#![tactic(auto)]

use bridge_decl::IdentBuf;
use hir_life::{BoundedLifetime, Lifetime, LifetimeEnv, LifetimeList, Steps};
use sqlite_items::Items;
use std::alloc::Global;
use std::marker::Brand;
use std::sync::ledger::{Blank, Ledger};
use std::time::Instant;

/// Of `count` lifetimes each outlives the one before it, and the first outlives the last.
fn ring(alloc: Global, count: usize) -> anyhow::Result<LifetimeEnv> {
    let mut nodes = Items::new(alloc);
    for at in 0..count {
        let mut longer = LifetimeList::new(alloc);
        longer.push(Lifetime::new((at + 1) % count))?;
        let mut shorter = LifetimeList::new(alloc);
        shorter.push(Lifetime::new((at + count - 1) % count))?;
        let name = format!(in alloc; "l{at}")?;
        let ident = IdentBuf::new(alloc, name.as_str()).ok().unwrap();
        nodes.push(BoundedLifetime { ident, longer, shorter })?;
    }
    Ok(LifetimeEnv::new(nodes, count))
}

/// Of `count` lifetimes each outlives every one.
fn complete(alloc: Global, count: usize) -> anyhow::Result<LifetimeEnv> {
    let mut nodes = Items::new(alloc);
    for at in 0..count {
        let mut longer = LifetimeList::new(alloc);
        let mut shorter = LifetimeList::new(alloc);
        for other in 0..count {
            longer.push(Lifetime::new(other))?;
            shorter.push(Lifetime::new(other))?;
        }
        let name = format!(in alloc; "l{at}")?;
        let ident = IdentBuf::new(alloc, name.as_str()).ok().unwrap();
        nodes.push(BoundedLifetime { ident, longer, shorter })?;
    }
    Ok(LifetimeEnv::new(nodes, count))
}

fn listed<L: Ledger>(alloc: Global, env: &LifetimeEnv, blank: Blank) -> anyhow::Result<usize> {
    let mut steps = Steps::<L>::new(blank);
    let longer = env.longer_of(alloc, Lifetime::new(0), &mut steps)?;
    Ok(longer.len())
}

fn visited(alloc: Global, env: &LifetimeEnv) -> anyhow::Result<usize> {
    let mut number = 0usize;
    let mut visitor = env.subtype_lifetimes_visitor(alloc, |_lt: Lifetime| {
        number = number.saturating_add(1);
    })?;
    for at in 0..env.num_lifetimes() {
        visitor.visit_subtypes(Lifetime::new(at));
    }
    drop(visitor);
    Ok(number)
}

fn walked(alloc: Global, env: &LifetimeEnv) -> anyhow::Result<usize> {
    let start = Lifetime::new(0);
    let longer = env.all_longer_lifetimes(alloc, start)?.count();
    let shorter = env.all_shorter_lifetimes(alloc, start)?.count();
    Ok(longer.saturating_add(shorter))
}

fn main(rt: HostRuntime) -> anyhow::Result<()> {
    let alloc = rt.alloc();
    let envs = [
        ("ring of 2,048", 20u64, ring(alloc, 2048)?),
        ("ring of 4,095", 20u64, ring(alloc, 4095)?),
        ("complete, 500", 2u64, complete(alloc, 500)?),
        ("complete, 1,000", 2u64, complete(alloc, 1000)?),
    ];
    println!(rt; "graph            all_longer and all_shorter   longer_of   visits from all   (microseconds each)")?;
    for (name, times, env) in &envs {
        let mut total = 0usize;
        let begin = Instant::now(&rt)?;
        for _ in 0..*times {
            total = total.saturating_add(walked(alloc, env)?);
        }
        let walks = begin.elapsed(&rt)?.as_micros() as u64 / *times;
        let begin = Instant::now(&rt)?;
        for _ in 0..*times {
            total = total.saturating_add(listed::<Brand>(alloc, env, Blank::new(1))?);
        }
        let lists = begin.elapsed(&rt)?.as_micros() as u64 / *times;
        let begin = Instant::now(&rt)?;
        for _ in 0..*times {
            total = total.saturating_add(visited(alloc, env)?);
        }
        let visits = begin.elapsed(&rt)?.as_micros() as u64 / *times;
        println!(rt; "{name:<16} {walks:>26} {lists:>11} {visits:>17}   {total} lifetimes")?;
    }
    Ok(())
}
PROGRAM
rt try
