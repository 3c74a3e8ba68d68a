#!/bin/sh
# Times the reading of an input beside the reading of the same bytes as a JSON value: of 0.5, 5 and 40 MB, in milliseconds, first
# in a process that does nothing else (as the program does, with the memory that it takes at the peak), the least of seven processes
# of each, in turns; then over and over in one process, the least of seven times. The program is made in a temporary folder, beside a
# copy of the crates, which are proved there first, and is deleted with it.
#
#   bench/reading.sh            makes the program, and times it
#   bench/reading.sh PROGRAM    times a program that was made before
set -eu

here=$(CDPATH='' cd -P -- "$(dirname -- "$0")" && pwd -P)
folder=$(mktemp -d)
trap 'rm -rf -- "$folder"' EXIT INT TERM

# Modules with an enum, a struct, an opaque with methods, a trait and a function, until there are so many bytes.
input() {
    awk -v most="$1" '
    function named(path) { return "{\"named\":{\"segments\":[" path "]}}" }
    function ref(lifetime, to) { return "{\"ref\":{\"lifetime\":\"" lifetime "\",\"to\":" to "}}" }
    function docs(text) { return "\"docs\":{\"blocks\":[{\"if\":\"*\",\"lines\":\"" text "\"}],\"links\":[{\"path\":[\"icu\",\"locale\"],\"kind\":\"Struct\",\"display\":\"normal\"}]}" }
    function mark(name) { return "\"attrs\":{\"marks\":[{\"if\":\"auto\",\"mark\":[\"" name "\"]}]}" }
    function receiver(n) { return "\"self_type\":{\"segments\":[\"Formatter" n "\"],\"lifetimes\":[\"f\"]},\"self\":{\"reference\":{\"lifetime\":\"a\"},\"path\":{\"segments\":[\"Formatter" n "\"],\"lifetimes\":[\"f\"]}}" }
    function module(n,    text, own) {
        own = named("\"crate\",\"data" n "\",\"Formatter" n "\"")
        text = "{\"name\":\"data" n "\",\"items\":["
        text = text "{\"kind\":\"enum\",\"name\":\"Width\",\"variants\":[{\"name\":\"Short\",\"discriminant\":0},{\"name\":\"Long\",\"discriminant\":1}]," mark("abi_compatible") "},"
        text = text "{\"kind\":\"struct\",\"name\":\"Options\",\"lifetimes\":[{\"name\":\"o\"}],\"fields\":["
        text = text "{\"name\":\"formatter\",\"ty\":" ref("o", own) "},{\"name\":\"pattern\",\"ty\":{\"str\":{\"lifetime\":\"o\",\"encoding\":\"unvalidated_utf8\"}}},"
        text = text "{\"name\":\"fallback\",\"ty\":{\"diplomat_option\":" named("\"Width\"") "}}]," docs("What a formatter is made with.") "},"
        text = text "{\"kind\":\"opaque\",\"name\":\"Formatter" n "\",\"lifetimes\":[{\"name\":\"f\"}],\"methods\":["
        text = text "{\"name\":\"try_new\",\"self_type\":{\"segments\":[\"Formatter" n "\"],\"lifetimes\":[\"f\"]},\"lifetimes\":[{\"name\":\"f\"}],"
        text = text "\"params\":[{\"name\":\"provider\",\"ty\":" ref("f", own) "},{\"name\":\"options\",\"ty\":" named("\"Options\"") "}],"
        text = text "\"ret\":{\"result\":{\"ok\":{\"box\":" own "},\"err\":" named("\"Width\"") "}}," docs("Makes a formatter.") "},"
        text = text "{\"name\":\"parts\"," receiver(n) ",\"lifetimes\":[{\"name\":\"f\",\"shorter\":[1]},{\"name\":\"a\",\"longer\":[0]}],"
        text = text "\"params\":[{\"name\":\"value\",\"ty\":\"i64\"},{\"name\":\"each\",\"ty\":{\"fn\":{\"params\":[\"u32\"],\"ret\":\"bool\"}}}],\"ret\":{\"box\":" own "}," mark("iterable") "},"
        text = text "{\"name\":\"write\"," receiver(n) ",\"lifetimes\":[{\"name\":\"f\"},{\"name\":\"a\"}],\"params\":[{\"name\":\"w\",\"ty\":{\"write\":\"str\"}}]," docs("Writes the text.") "}]},"
        text = text "{\"kind\":\"trait\",\"name\":\"Sink\",\"methods\":[{\"name\":\"accept\",\"self\":{\"path\":{\"segments\":[\"Sink\"]}},\"params\":[{\"name\":\"n\",\"ty\":\"u32\"}],\"ret\":\"bool\"}]},"
        text = text "{\"kind\":\"function\",\"name\":\"parse\",\"lifetimes\":[{\"name\":\"x\"}],\"params\":[{\"name\":\"text\",\"ty\":{\"str\":{\"lifetime\":\"x\",\"encoding\":\"utf8\"}}},"
        text = text "{\"name\":\"sink\",\"ty\":{\"impl\":{\"segments\":[\"Sink\"]}}}],\"ret\":" named("\"Options\"") "}]}"
        return text
    }
    BEGIN {
        printf "{\"root\":{\"modules\":["
        for (n = 0; sum < most; n++) { text = module(n); sum += length(text) + 1; printf "%s%s", n ? "," : "", text }
        printf "]},\"backend\":{\"name\":\"js\",\"supports\":[\"option\",\"iterables\"]}}\n"
    }'
}

build() {
    mkdir "$folder/crates"
    cp "$here/../crates.txt" "$folder/"
    echo 'reading_times: bridge_outside bridge_read serde_json' >>"$folder/crates.txt"
    sed -e 's/#.*//' -e '/:/!d' -e 's/:.*//' "$here/../crates.txt" | while read -r crate; do
        mkdir "$folder/crates/$crate"
        for part in src specs proofs; do
            [ ! -d "$here/../crates/$crate/$part" ] || cp -R "$here/../crates/$crate/$part" "$folder/crates/$crate/"
        done
    done
    mkdir -p "$folder/crates/reading_times/src"
    cd "$folder/crates/reading_times"
    cat >src/main.rt <<'PROGRAM'
#![tactic(auto)]

use bridge_outside::{StdSource, read_all};
use bridge_read::read_input;
use serde_json::Value;
use std::env;
use std::io::Error;
use std::process::ExitCode;
use std::time::Instant;

/// The nanoseconds that the reading of the value takes; none of what isn't read.
fn value_time(rt: &HostRuntime, bytes: &[u8]) -> Result<u128, Error> {
    let begin = Instant::now(rt)?;
    let value = Value::from_slice(rt.alloc(), bytes);
    let is_read = value.is_ok();
    drop(value);
    let time = begin.elapsed(rt)?.as_nanos();
    if is_read { Ok(time) } else { Ok(0) }
}

/// The nanoseconds that the reading of the whole input takes; none of what isn't read.
fn input_time(rt: &HostRuntime, bytes: &[u8]) -> Result<u128, Error> {
    let begin = Instant::now(rt)?;
    let input = read_input(rt.alloc(), bytes);
    let is_read = input.is_ok();
    drop(input);
    let time = begin.elapsed(rt)?.as_nanos();
    if is_read { Ok(time) } else { Ok(0) }
}

/// What the first word asks for: `value` or `input` once, or both over and over.
fn run(rt: &HostRuntime, bytes: &[u8]) -> Result<(), Error> {
    let word = env::args(rt)?.skip(1).next();
    match word.as_ref().map(|word| word.as_str()) {
        Some("value") => println!(rt; "{}", value_time(rt, bytes)?),
        Some(_) => println!(rt; "{}", input_time(rt, bytes)?),
        None => {
            for _ in 0..7 {
                println!(rt; "{} {}", value_time(rt, bytes)?, input_time(rt, bytes)?)?;
            }
            Ok(())
        }
    }
}

fn main(rt: HostRuntime) -> ExitCode {
    let mut source = StdSource::new(rt.stdin());
    let Ok(bytes) = read_all(rt.alloc(), &mut source) else {
        return ExitCode::from(1);
    };
    match run(&rt, &bytes) {
        Ok(()) => ExitCode::from(0),
        Err(_) => ExitCode::from(1),
    }
}
PROGRAM
    input 1000 | rt run >/dev/null
    program=$folder/crates/reading_times/out/reading_times
}

if [ $# -ge 1 ]; then program=$1; else build; fi

# The least times of seven processes that read the value and of seven that read the whole input, in turns, in nanoseconds.
least() {
    for _ in 1 2 3 4 5 6 7; do echo "$("$program" value <"$folder/input") $("$program" input <"$folder/input")"; done | awk '
        NR == 1 || $1 < value { value = $1 }
        NR == 1 || $2 < input { input = $2 }
        END { printf "%.0f %.0f\n", value, input }'
}

# The most memory that such a process takes, in KB, where GNU time is there.
peak() {
    if [ -x /usr/bin/time ]; then /usr/bin/time -f %M "$program" "$1" <"$folder/input" 2>&1 >/dev/null; else echo 0; fi
}

printf '%8s %12s %12s %8s %12s %12s\n' MB value input ratio 'value, MB' 'input, MB'
for size in 0.5 5 40; do
    input "$(awk -v mb="$size" 'BEGIN { printf "%d", mb * 1000000 }')" >"$folder/input"
    echo "$(least) $(peak value) $(peak input)" | awk -v mb="$size" '
        { printf "%8s %12.1f %12.1f %8.2f %12.0f %12.0f\n", mb, $1 / 1e6, $2 / 1e6, $2 / $1, $3 / 1e3, $4 / 1e3 }'
done
printf '\nover and over in one process\n'
for size in 0.5 5 40; do
    input "$(awk -v mb="$size" 'BEGIN { printf "%d", mb * 1000000 }')" >"$folder/input"
    "$program" <"$folder/input" | awk -v mb="$size" '
        NR == 1 || $1 < value { value = $1 }
        NR == 1 || $2 < input { input = $2 }
        END { printf "%8s %12.1f %12.1f %8.2f\n", mb, value / 1e6, input / 1e6, input / value }'
done
