#!/bin/sh
# Times `TypeContext::from_env` of `hir_lower`, in seconds, the least of five processes each: on an opaque with 10,000 methods, on 100,000 structs of
# which each contains the one before it but for the first of eight, on a struct with a million fields, and on 100,000 modules with a struct each; and
# on half as much of each. A process reads its input by `bridge_read`, which isn't timed. The program is made in a temporary folder, beside a copy of
# the crates and of what is built of them in out/, and is deleted with it; crates that aren't built are proved there first.
#
#   bench/lowering.sh            makes the program, and times it
#   bench/lowering.sh PROGRAM    times a program that was made before
set -eu

here=$(CDPATH='' cd -P -- "$(dirname -- "$0")" && pwd -P)
folder=$(mktemp -d)
trap 'rm -rf -- "$folder"' EXIT INT TERM

# So many parts of a kind.
input() {
    awk -v kind="$1" -v count="$2" '
    function named(name) { return "{\"named\":{\"segments\":[\"" name "\"]}}" }
    function method(n) {
        return "{\"name\":\"m" n "\",\"self_type\":{\"segments\":[\"O\"]},\"self\":{\"reference\":{\"lifetime\":\"a\"},\"path\":{\"segments\":[\"O\"]}},\"lifetimes\":[{\"name\":\"a\"}],\"params\":[{\"name\":\"x\",\"ty\":{\"ref\":{\"lifetime\":\"a\",\"to\":" named("O") "}}},{\"name\":\"y\",\"ty\":\"u32\"}],\"ret\":{\"ref\":{\"lifetime\":\"a\",\"to\":" named("O") "}}}"
    }
    function field(n) { return "{\"name\":\"x" n "\",\"ty\":\"u32\"}" }
    function struct_of(n, ty) { return "{\"kind\":\"struct\",\"name\":\"S" n "\",\"fields\":[{\"name\":\"x\",\"ty\":" ty "}]}" }
    function part(n) {
        if (kind == "methods") return method(n)
        if (kind == "structs") return struct_of(n, n % 8 ? named("S" (n - 1)) : "\"u32\"")
        if (kind == "fields") return field(n)
        return "{\"name\":\"m" n "\",\"items\":[" struct_of("", "\"u32\"") "]}"
    }
    BEGIN {
        if (kind == "methods") printf "{\"root\":{\"items\":[{\"kind\":\"opaque\",\"name\":\"O\",\"methods\":["
        if (kind == "structs") printf "{\"root\":{\"items\":["
        if (kind == "fields") printf "{\"root\":{\"items\":[{\"kind\":\"struct\",\"name\":\"S\",\"fields\":["
        if (kind == "modules") printf "{\"root\":{\"modules\":["
        for (n = 0; n < count; n++) printf "%s%s", n ? "," : "", part(n)
        if (kind == "methods" || kind == "fields") printf "]}"
        printf "]}}\n"
    }'
}

# The libraries that a crate stands on, and itself.
with_below() {
    sed -n "s/^$1: *//p" "$here/../crates.txt" | tr ' ' '\n'
    echo "$1"
}

build() {
    below=$( (with_below bridge_outside && with_below bridge_read && with_below hir_lower) | sort -u)
    for crate in $below; do
        [ -d "$here/../crates/$crate" ] || continue
        grep "^$crate:" "$here/../crates.txt" >>"$folder/crates.txt"
        mkdir -p "$folder/crates/$crate/out"
        for part in src specs proofs out/rlib; do
            [ ! -d "$here/../crates/$crate/$part" ] || cp -R "$here/../crates/$crate/$part" "$folder/crates/$crate/$part"
        done
    done
    # shellcheck disable=SC2086
    echo lowering_times: $below >>"$folder/crates.txt"
    mkdir -p "$folder/crates/lowering_times/src"
    cd "$folder/crates/lowering_times"
    cat >src/main.rt <<'PROGRAM'
#![tactic(auto)]

use bridge_outside::{StdSource, read_all};
use bridge_read::{Input, read_input};
use hir_lower::{FromEnv, LowerFault, TypeContext};
use std::alloc::Global;
use std::io::Error;
use std::process::ExitCode;
use std::time::Instant;

/// What becomes of an input.
fn outcome(alloc: Global, input: &Input) -> &'static str {
    match TypeContext::from_env(alloc, &input.env, input.config, &input.validator) {
        Ok(_) => "accepted",
        Err(LowerFault::Refused(_)) => "refused",
        Err(LowerFault::NoMemory) => "no memory",
    }
}

/// Prints how many nanoseconds that takes, with the letting go of it, and what it is.
fn print_time(rt: &HostRuntime, input: &Input) -> Result<(), Error> {
    let begin = Instant::now(rt)?;
    let outcome = outcome(rt.alloc(), input);
    let time = begin.elapsed(rt)?.as_nanos();
    println!(rt; "{time} {outcome}")
}

fn main(rt: HostRuntime) -> ExitCode {
    let mut source = StdSource::new(rt.stdin());
    let Ok(bytes) = read_all(rt.alloc(), &mut source) else {
        return ExitCode::from(1);
    };
    let Ok(input) = read_input(rt.alloc(), bytes.as_slice()) else {
        return ExitCode::from(2);
    };
    match print_time(&rt, &input) {
        Ok(()) => ExitCode::from(0),
        Err(_) => ExitCode::from(1),
    }
}
PROGRAM
    input structs 8 | rt run >/dev/null
    program=$folder/crates/lowering_times/out/lowering_times
}

if [ $# -ge 1 ]; then program=$1; else build; fi

for row in 'methods 5000' 'methods 10000' 'structs 50000' 'structs 100000' 'fields 500000' 'fields 1000000' 'modules 50000' 'modules 100000'; do
    input ${row% *} ${row#* } >"$folder/input.json"
    for _ in 1 2 3 4 5; do
        "$program" <"$folder/input.json"
    done | sort -n | head -n 1 | awk -v row="$row" '{ printf "%-16s %8.3f %s %s\n", row, $1 / 1e9, $2, $3 }'
done
