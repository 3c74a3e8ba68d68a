//! The words of the command, and what they ask for.

use crate::emit::Symbols;
use serde_json::{Map, Value};
use std::fs;
use std::path::PathBuf;

/// What an input says besides its declarations.
const BESIDES: [&str; 3] = ["backend", "config", "docs"];

/// The flags that a backend may have.
const FLAGS: [&str; 42] = [
    "namespacing",
    "memory_sharing",
    "non_exhaustive_structs",
    "method_overloading",
    "utf8_strings",
    "utf16_strings",
    "static_slices",
    "defaults",
    "constructors",
    "named_constructors",
    "fallible_constructors",
    "accessors",
    "static_accessors",
    "stringifiers",
    "comparators",
    "partial_comparators",
    "iterators",
    "iterables",
    "indexing",
    "arithmetic",
    "option",
    "callbacks",
    "traits",
    "custom_errors",
    "traits_are_send",
    "traits_are_sync",
    "generate_mocking_interface",
    "manually_disposable",
    "abi_compatibles",
    "struct_refs",
    "mut_struct_refs",
    "free_functions",
    "custom_bindings",
    "owned_slices",
    "default_args",
    "mutable_slices",
    "tuples",
    "opaque_slices",
    "owned_byte_slice_returns",
    "callback_returns_must_be_fallible",
    "generic_writeables",
    "utf16_writeables",
];

/// What the words of the command ask for.
#[derive(Debug, Clone, PartialEq)]
pub struct Settings {
    /// The files to read, each as the root of a crate.
    pub files: Vec<PathBuf>,
    /// Which symbols are written.
    pub symbols: Symbols,
    /// The keys of the input beside its root.
    pub besides: Map<String, Value>,
}

impl Settings {
    /// Reads the words. The error is a line for a person.
    pub fn from_words(words: impl IntoIterator<Item = String>) -> Result<Self, String> {
        let mut settings = Settings { files: Vec::new(), symbols: Symbols::All, besides: Map::new() };
        let mut backend = Map::new();
        let mut words = words.into_iter();
        while let Some(word) = words.next() {
            let mut value = || words.next().ok_or_else(|| format!("a value is missing after {word}"));
            match word.as_str() {
                "--backend" => drop(backend.insert("name".to_owned(), value()?.into())),
                "--supports" => drop(backend.insert("supports".to_owned(), flags(&value()?)?.into())),
                "--symbols" => settings.symbols = symbols(&value()?),
                "--with" => settings.besides = besides(&value()?)?,
                "--" => settings.files.extend(words.by_ref().map(PathBuf::from)),
                option if option.starts_with('-') && option != "-" => {
                    return Err(format!("no option is named {option}"))
                }
                file => settings.files.push(PathBuf::from(file)),
            }
        }
        if settings.files.is_empty() {
            return Err("no file is named".to_owned());
        }
        settings.add_backend(backend)?;
        Ok(settings)
    }

    /// Puts what the words say of the backend in place of what the file of `--with` says.
    fn add_backend(&mut self, said: Map<String, Value>) -> Result<(), String> {
        if said.is_empty() {
            return Ok(());
        }
        let backend = self.besides.entry("backend").or_insert_with(|| Value::Object(Map::new()));
        match backend {
            Value::Object(backend) => backend.extend(said),
            _ => return Err("the backend in the file of --with is no object".to_owned()),
        }
        Ok(())
    }
}

fn listed(words: &str) -> Vec<String> {
    words
        .split(',')
        .map(str::trim)
        .filter(|word| !word.is_empty())
        .map(str::to_owned)
        .collect()
}

fn flags(words: &str) -> Result<Vec<String>, String> {
    let list = listed(words);
    match list.iter().find(|flag| !FLAGS.contains(&flag.as_str())) {
        Some(flag) => Err(format!("a backend has no flag named {flag}")),
        None => Ok(list),
    }
}

fn symbols(word: &str) -> Symbols {
    match word {
        "all" => Symbols::All,
        "none" => Symbols::None,
        list => Symbols::Only(listed(list)),
    }
}

fn besides(file: &str) -> Result<Map<String, Value>, String> {
    let text = fs::read_to_string(file).map_err(|error| format!("{file} can't be read: {error}"))?;
    match serde_json::from_str(&text) {
        Ok(Value::Object(keys)) => match keys.keys().find(|key| !BESIDES.contains(&key.as_str())) {
            Some(key) => Err(format!("{file} has a key {key}, where only backend, config and docs may stand")),
            None => Ok(keys),
        },
        Ok(_) => Err(format!("{file} has no object")),
        Err(error) => Err(format!("{file} isn't JSON: {error}")),
    }
}
