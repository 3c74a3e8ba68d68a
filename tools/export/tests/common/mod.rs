//! What the tests share: exports of texts, by way of files.

#![allow(dead_code)]

use bridge_export::export;
use bridge_export::settings::Settings;
use serde_json::Value;
use std::fs;
use std::path::{Path, PathBuf};
use std::sync::atomic::{AtomicUsize, Ordering};

/// A new folder for one test.
pub fn folder() -> PathBuf {
    static NEXT: AtomicUsize = AtomicUsize::new(0);
    let number = NEXT.fetch_add(1, Ordering::Relaxed);
    let folder = Path::new(env!("CARGO_TARGET_TMPDIR")).join(format!("{}-{number}", std::process::id()));
    fs::create_dir_all(&folder).expect("a folder can be made");
    folder
}

/// Writes files into a new folder, and answers the folder.
pub fn written(files: &[(&str, &str)]) -> PathBuf {
    let folder = folder();
    for (name, text) in files {
        let file = folder.join(name);
        fs::create_dir_all(file.parent().expect("a file is in a folder")).expect("a folder can be made");
        fs::write(file, text).expect("a file can be written");
    }
    folder
}

/// What the words of a command make; else the faults, each as `file:line:column: text` with the file's last name.
pub fn made_by(words: &[&str]) -> Result<Value, Vec<String>> {
    let settings = Settings::from_words(words.iter().map(|word| word.to_string())).expect("the words are right");
    export(&settings).map_err(|faults| {
        let told = |fault: &bridge_export::faults::Fault| {
            let text = fault.to_string();
            let folder = format!("{}/", fault.file.parent().unwrap_or(Path::new("")).display());
            text.replacen(&folder, "", 1)
        };
        faults.iter().map(told).collect()
    })
}

/// What a file of that text makes.
pub fn export_of(text: &str) -> Result<Value, Vec<String>> {
    let file = written(&[("lib.rs", text)]).join("lib.rs");
    made_by(&[&file.display().to_string()])
}

/// What stands in a bridge of that text, as a module without a name.
pub fn bridge_of(text: &str) -> Value {
    let input = export_of(&format!("#![diplomat::bridge]\n{text}"));
    input.expect("the text can be exported")["root"].clone()
}

/// The only item of a bridge of that text.
pub fn item_of(text: &str) -> Value {
    let root = bridge_of(text);
    let items = root["items"].as_array().expect("there are items");
    assert_eq!(items.len(), 1, "of {text}");
    items[0].clone()
}

/// The faults of a bridge of that text, without the file; the text begins at line 1.
pub fn faults_of(text: &str) -> Vec<String> {
    let faults = export_of(&format!("#![diplomat::bridge] {text}")).expect_err("the text can't be exported");
    faults.iter().map(|fault| fault.trim_start_matches("lib.rs:").to_owned()).collect()
}

/// A JSON text as a value.
pub fn json(text: &str) -> Value {
    serde_json::from_str(text).unwrap_or_else(|error| panic!("{error} in {text}"))
}
