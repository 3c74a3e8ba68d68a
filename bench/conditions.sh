#!/bin/sh
# Times what a backend is made of and asked by `hir_backends`: pairs, names and features, as many as an input can hold, and as many
# conditions that ask for them by `satisfies_cfg`, in milliseconds, the best of three each, in one process. The program is made in a
# temporary folder, beside a copy of the crates, is proved there first, and is deleted with it.
#
#   bench/conditions.sh            makes the program, and runs it
#   bench/conditions.sh PROGRAM    runs a program that was made before
set -eu

here=$(CDPATH='' cd -P -- "$(dirname -- "$0")" && pwd -P)
folder=$(mktemp -d)
trap 'rm -rf -- "$folder"' EXIT INT TERM

build() {
    crates='bridge_text bridge_decl hir_reports hir_backends'
    for crate in $crates; do
        grep "^$crate:" "$here/../crates.txt" >>"$folder/crates.txt"
        mkdir -p "$folder/crates/$crate"
        for part in src specs proofs; do
            if [ -d "$here/../crates/$crate/$part" ]; then
                cp -R "$here/../crates/$crate/$part" "$folder/crates/$crate/"
            fi
        done
    done
    echo "condition_times: $crates sqlite_items thiserror" >>"$folder/crates.txt"
    mkdir -p "$folder/crates/condition_times/src"
    cd "$folder/crates/condition_times"
    cat >src/main.rt <<'PROGRAM'
#![tactic(auto)]

use bridge_decl::{DiplomatBackendAttrCfg, Items, NoMemory, Text};
use hir_backends::{BasicAttributeValidator, Names, Pairs, satisfies_cfg};
use std::alloc::Global;
use std::io;
use std::process::ExitCode;
use std::time::Instant;

/// A word and a number.
fn text(alloc: Global, word: &str, number: usize) -> Result<Text, NoMemory> {
    let mut text = String::from_str(alloc, word)?;
    text.push_str(number.to_string(alloc)?.as_str())?;
    Text::new(alloc, text.as_str())
}

/// A number below this one that looks like chance, and the next state.
fn next(state: u64, below: usize) -> (usize, u64) {
    let state = state.wrapping_mul(6364136223846793005).wrapping_add(1442695040888963407);
    let number = (state >> 33) as usize;
    if below > 0 { (number % below, state) } else { (0, state) }
}

/// Names of numbers by chance.
fn names(alloc: Global, word: &str, count: usize) -> Result<Items<Text>, NoMemory> {
    let mut items = Items::new(alloc);
    let mut state = 1u64;
    for _ in 0..count {
        let (number, after) = next(state, count);
        state = after;
        items.push(text(alloc, word, number)?)?;
    }
    Ok(items)
}

/// Pairs of numbers by chance.
fn pairs(alloc: Global, count: usize) -> Result<Items<(Text, Text)>, NoMemory> {
    let mut items = Items::new(alloc);
    let mut state = 1u64;
    for _ in 0..count {
        let (number, after) = next(state, count);
        state = after;
        items.push((text(alloc, "name", number)?, text(alloc, "value", number)?))?;
    }
    Ok(items)
}

/// What conditions ask for.
#[derive(Clone, Copy)]
enum Asked {
    Names,
    Features,
    Pairs,
}

fn condition(
    alloc: Global,
    asked: Asked,
    number: usize,
) -> Result<DiplomatBackendAttrCfg, NoMemory> {
    match asked {
        Asked::Names => Ok(DiplomatBackendAttrCfg::BackendName(text(alloc, "name", number)?)),
        Asked::Features => Ok(DiplomatBackendAttrCfg::NameValue(
            Text::new(alloc, "feature")?,
            text(alloc, "name", number)?,
        )),
        Asked::Pairs => Ok(DiplomatBackendAttrCfg::NameValue(
            text(alloc, "name", number)?,
            text(alloc, "value", number)?,
        )),
    }
}

/// Conditions that ask for numbers by chance.
fn conditions(
    alloc: Global,
    asked: Asked,
    count: usize,
) -> Result<Items<DiplomatBackendAttrCfg>, NoMemory> {
    let mut items = Items::new(alloc);
    let mut state = 7u64;
    for _ in 0..count {
        let (number, after) = next(state, count);
        state = after;
        items.push(condition(alloc, asked, number)?)?;
    }
    Ok(items)
}

/// A backend that knows so many of what is asked for.
fn knowing(
    alloc: Global,
    asked: Asked,
    count: usize,
) -> Result<BasicAttributeValidator, NoMemory> {
    let mut backend = BasicAttributeValidator::new(alloc, "cpp")?;
    match asked {
        Asked::Names => {
            backend.other_backend_names = Names::new(alloc, names(alloc, "name", count)?)?;
        }
        Asked::Features => {
            backend.features_enabled = Names::new(alloc, names(alloc, "name", count)?)?;
        }
        Asked::Pairs => {
            backend.name_values = Pairs::new(alloc, pairs(alloc, count)?)?;
        }
    }
    Ok(backend)
}

/// How many conditions are met.
fn met(backend: &BasicAttributeValidator, conditions: &[DiplomatBackendAttrCfg]) -> usize {
    let mut met = 0usize;
    for condition in conditions {
        match satisfies_cfg(backend, condition, None) {
            Ok(true) => met = met.saturating_add(1),
            _ => {}
        }
    }
    met
}

fn nanoseconds(rt: &HostRuntime, begin: Instant) -> Result<u64, io::Error> {
    Ok(u64::try_from(begin.elapsed(rt)?.as_nanos()).unwrap_or(u64::MAX))
}

/// The nanoseconds that the answers took, at best, and how many conditions are met.
fn asked_times(
    rt: &HostRuntime,
    backend: &BasicAttributeValidator,
    conditions: &[DiplomatBackendAttrCfg],
) -> Result<(u64, usize), io::Error> {
    let mut least = u64::MAX;
    let mut count = 0usize;
    for _ in 0..3 {
        let begin = Instant::now(rt)?;
        count = met(backend, conditions);
        least = least.min(nanoseconds(rt, begin)?);
    }
    Ok((least, count))
}

/// Prints a line of the table: what is asked for, how many, how many are met, and the nanoseconds of making and of asking.
fn line(rt: &HostRuntime, word: &str, asked: Asked, count: usize) -> Result<(), io::Error> {
    let conditions = conditions(rt.alloc(), asked, count)?;
    let begin = Instant::now(rt)?;
    let backend = knowing(rt.alloc(), asked, count)?;
    let made = nanoseconds(rt, begin)?;
    let (least, met) = asked_times(rt, &backend, conditions.as_slice())?;
    println!(rt; "{word} {count} {met} {made} {least}")?;
    Ok(())
}

fn lines(rt: &HostRuntime) -> Result<(), io::Error> {
    line(rt, "pairs", Asked::Pairs, 250000)?;
    line(rt, "pairs", Asked::Pairs, 1000000)?;
    line(rt, "names", Asked::Names, 250000)?;
    line(rt, "names", Asked::Names, 1000000)?;
    line(rt, "features", Asked::Features, 1000000)
}

fn main(rt: HostRuntime) -> ExitCode {
    match lines(&rt) {
        Ok(()) => ExitCode::from(0),
        Err(_) => ExitCode::from(1),
    }
}
PROGRAM
    rt run >/dev/null
    program=$folder/crates/condition_times/out/condition_times
}

if [ $# -ge 1 ]; then program=$1; else build; fi
printf '%-10s %10s %10s %10s %10s\n' 'asked for' number met 'made, ms' 'asked, ms'
"$program" | awk '{ printf "%-10s %10d %10d %10.1f %10.1f\n", $1, $2, $3, $4 / 1e6, $5 / 1e6 }'
