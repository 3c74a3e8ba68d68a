//! The program: files in, one JSON text out.

use bridge_export::export;
use bridge_export::settings::Settings;
use std::env;
use std::io::{self, Write};
use std::process::ExitCode;

/// Something can't be exported.
const REFUSED: u8 = 1;
/// The JSON couldn't be written.
const UNWRITTEN: u8 = 4;
/// The words of the command have no meaning.
const BAD_WORDS: u8 = 6;

const USAGE: &str = "\
usage: export FILE.rs.. [--backend NAME] [--supports A,B] [--with FILE.json] [--symbols all|none|A,B]

Reads each FILE.rs as the root of a crate, and writes the declarations of its bridges as JSON.

  --backend NAME     the backend's name
  --supports A,B     the flags of what the backend supports
  --with FILE.json   the keys backend, config and docs, as they stand in that file
  --symbols WHICH    the symbols that are written: all (so without this option), none, or those listed

What can't be exported is told on standard error by file, line and column. The status is 1 then, and
nothing is written. It is 4 where a write failed, and 6 where the words have another form.
";

fn main() -> ExitCode {
    let words: Vec<String> = env::args().skip(1).collect();
    if words == ["--help"] {
        print!("{USAGE}");
        return ExitCode::SUCCESS;
    }
    match Settings::from_words(words) {
        Ok(settings) => run(&settings),
        Err(text) => {
            eprint!("export: {text}\n{USAGE}");
            ExitCode::from(BAD_WORDS)
        }
    }
}

fn run(settings: &Settings) -> ExitCode {
    match export(settings) {
        Ok(input) => match writeln!(io::stdout(), "{input:#}") {
            Ok(()) => ExitCode::SUCCESS,
            Err(error) => {
                eprintln!("export: the JSON couldn't be written: {error}");
                ExitCode::from(UNWRITTEN)
            }
        },
        Err(faults) => {
            faults.iter().for_each(|fault| eprintln!("{fault}"));
            ExitCode::from(REFUSED)
        }
    }
}
