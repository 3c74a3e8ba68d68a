#!/bin/sh
# Times the survey of large graphs by `definition_graph`: rings, chains, dense graphs and graphs at random, in milliseconds, the best
# of five each, in one process. The program is made in a temporary folder, beside a copy of the crate, is proved there first, and is
# deleted with it.
#
#   bench/graph.sh            makes the program, and runs it
#   bench/graph.sh PROGRAM    runs a program that was made before
set -eu

here=$(CDPATH='' cd -P -- "$(dirname -- "$0")" && pwd -P)
folder=$(mktemp -d)
trap 'rm -rf -- "$folder"' EXIT INT TERM

build() {
    mkdir -p "$folder/crates/definition_graph"
    printf 'definition_graph:\ngraph_times: definition_graph\n' >"$folder/crates.txt"
    for part in src specs proofs; do
        cp -R "$here/../crates/definition_graph/$part" "$folder/crates/definition_graph/"
    done
    mkdir -p "$folder/crates/graph_times/src" "$folder/crates/graph_times/proofs/surveyed"
    cd "$folder/crates/graph_times"
    cat >proofs/surveyed/Invariants.antt <<'PROOF'
use Rattle.graph_times.proofs.surveyed.Given as goal

abbrev pub ghosts-in_ledger : goal.ghosts-in_ledger
ghosts-in_ledger a = record { name = a.blank.name; parts = a.blank.parts }
PROOF
    cat >src/main.rt <<'PROGRAM'
#![tactic(auto)]

ghost use Rattle.std.specs.Prelude.{◌≡◌, ◌<◌};

use definition_graph::{Graph, StepCounter, Survey};
use std::alloc::{AllocError, Global};
use std::io;
use std::marker::Brand;
use std::process::ExitCode;
use std::sync::ledger::{Blank, Ledger};
use std::time::Instant;

/// An edge more, where both of its ends are nodes.
fn link(graph: &mut Graph, from: usize, to: usize) -> Result<(), AllocError> {
    let count = graph.len();
    if from < count && to < count {
        graph.add_edge(from, to)?;
    }
    Ok(())
}

/// Each node names the next, and the last the first.
fn ring(alloc: Global, count: usize) -> Result<Graph, AllocError> {
    let mut graph = Graph::new(alloc, count)?;
    for to in 1..count {
        link(&mut graph, to - 1, to)?;
    }
    link(&mut graph, count.saturating_sub(1), 0)?;
    Ok(graph)
}

/// Each node names the one before it, so that the last nests deepest.
fn chain(alloc: Global, count: usize) -> Result<Graph, AllocError> {
    let mut graph = Graph::new(alloc, count)?;
    for from in 1..count {
        link(&mut graph, from, from - 1)?;
    }
    Ok(graph)
}

/// Each node names every one.
fn dense(alloc: Global, count: usize) -> Result<Graph, AllocError> {
    let mut graph = Graph::new(alloc, count)?;
    for from in 0..count {
        for to in 0..count {
            link(&mut graph, from, to)?;
        }
    }
    Ok(graph)
}

/// Each node names three, by a sequence that looks like chance.
fn random(alloc: Global, count: usize) -> Result<Graph, AllocError> {
    let mut graph = Graph::new(alloc, count)?;
    let mut state = 1u64;
    for from in 0..count {
        for _ in 0..3 {
            state = state.wrapping_mul(6364136223846793005).wrapping_add(1442695040888963407);
            let place = (state >> 33) as usize;
            if count > 0 {
                link(&mut graph, from, place % count)?;
            }
        }
    }
    Ok(graph)
}

/// The survey of a graph, with its steps in that ledger.
fn in_ledger<L: Ledger>(alloc: Global, graph: &Graph, blank: Blank) -> Result<Survey, AllocError>
    requires name { blank.name ≡ L.name }
    requires parts { blank.parts ≡ L.parts }
    requires some { 0 < blank.parts }
{
    let mut steps = StepCounter::<L>::new(blank);
    Survey::of(alloc, graph, &mut steps)
}

/// The survey of a graph.
fn surveyed(alloc: Global, graph: &Graph) -> Result<Survey, AllocError> {
    in_ledger::<Brand>(alloc, graph, Blank::new(1))
}

/// The nanoseconds that the survey took, at best, and how many nodes reach themselves.
fn times(rt: &HostRuntime, graph: &Graph) -> Result<(u64, usize), io::Error> {
    let mut least = u64::MAX;
    let mut cyclic = 0usize;
    for _ in 0..5 {
        let begin = Instant::now(rt)?;
        let survey = surveyed(rt.alloc(), graph)?;
        let took = u64::try_from(begin.elapsed(rt)?.as_nanos()).unwrap_or(u64::MAX);
        least = least.min(took);
        cyclic = survey.reaches_itself.iter().filter(|flag| **flag).count();
    }
    Ok((least, cyclic))
}

/// Prints a line of the table.
fn line(rt: &HostRuntime, name: &str, graph: &Graph) -> Result<(), io::Error> {
    let (least, cyclic) = times(rt, graph)?;
    println!(rt; "{name} {} {cyclic} {least}", graph.len())?;
    Ok(())
}

fn lines(rt: &HostRuntime) -> Result<(), io::Error> {
    let alloc = rt.alloc();
    line(rt, "ring", &ring(alloc, 250000)?)?;
    line(rt, "ring", &ring(alloc, 1000000)?)?;
    line(rt, "chain", &chain(alloc, 1000000)?)?;
    line(rt, "dense", &dense(alloc, 500)?)?;
    line(rt, "dense", &dense(alloc, 1000)?)?;
    line(rt, "random", &random(alloc, 1000000)?)
}

fn main(rt: HostRuntime) -> ExitCode {
    match lines(&rt) {
        Ok(()) => ExitCode::from(0),
        Err(_) => ExitCode::from(1),
    }
}
PROGRAM
    rt run >/dev/null
    program=$folder/crates/graph_times/out/graph_times
}

if [ $# -ge 1 ]; then program=$1; else build; fi
printf '%-8s %10s %16s %8s\n' graph nodes 'on a cycle' ms
"$program" | awk '{ printf "%-8s %10d %16d %8.1f\n", $1, $2, $3, $4 / 1e6 }'
