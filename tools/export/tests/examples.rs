//! The examples of the repository.

mod common;

use common::{json, made_by};
use serde_json::Value;
use std::collections::BTreeMap;
use std::fs;
use std::path::{Path, PathBuf};

fn example(name: &str) -> PathBuf {
    Path::new(env!("CARGO_MANIFEST_DIR")).join("../../examples").join(name)
}

fn expected(name: &str) -> Value {
    json(&fs::read_to_string(example(name)).expect("the example is there"))
}

fn exported(name: &str, options: &[&str]) -> Value {
    let file = example(name).display().to_string();
    made_by(&[&[file.as_str()], options].concat()).expect("the example can be exported")
}

#[test]
fn pick() {
    assert_eq!(exported("pick.rs", &["--symbols", "none"]), expected("pick.json"));
}

#[test]
fn pick_stands_in_the_page_on_inputs() {
    let page = include_str!("../../../docs/INPUT.md");
    let (_, bridge) = include_str!("../../../examples/pick.rs").split_once("#![diplomat::bridge]").expect("it is a bridge");
    let texts = [bridge, include_str!("../../../examples/pick.json"), include_str!("../../../examples/pick.page")];
    for text in texts {
        assert!(page.contains(text.trim()), "the page has {text}");
    }
}

#[test]
fn the_bridge() {
    let besides = example("bridge.besides.json").display().to_string();
    let options = ["--with", &besides, "--symbols", "Formatter_try_new,Locale_destroy"];
    assert_eq!(exported("bridge.rs", &options), expected("bridge.json"));
}

#[test]
fn symbols_of_the_bridge() {
    let mut found = BTreeMap::new();
    symbols(&exported("bridge.rs", &[])["root"], "", &mut found);
    let symbols: Vec<(&str, &str)> = found.iter().map(|(place, symbol)| (place.as_str(), symbol.as_str())).collect();
    let expected = [
        ("::data::Formatter", "Formatter_destroy"),
        ("::data::Formatter::each", "Formatter_each"),
        ("::data::Formatter::format", "Formatter_format"),
        ("::data::Formatter::parts", "Formatter_parts"),
        ("::data::Formatter::try_new", "Formatter_try_new"),
        ("::data::Parts", "Parts_destroy"),
        ("::data::Parts::next", "Parts_next"),
        ("::data::Provider", "Provider_destroy"),
        ("::data::Provider::load", "Provider_load"),
        ("::data::parse", "diplomat_external_parse"),
        ("::locale::Locale", "Locale_destroy"),
        ("::locale::Locale::compare", "Locale_compare"),
        ("::locale::Locale::direction", "Locale_direction"),
        ("::locale::Locale::name", "Locale_name"),
        ("::locale::Locale::new", "Locale_new"),
        ("::locale::Locale::write", "Locale_write"),
    ];
    assert_eq!(symbols, expected);
}

/// Gathers the symbols within a declaration, by its place.
fn symbols(declaration: &Value, place: &str, found: &mut BTreeMap<String, String>) {
    for key in ["abi_name", "dtor_abi_name"] {
        if let Some(symbol) = declaration[key].as_str() {
            found.insert(place.to_owned(), symbol.to_owned());
        }
    }
    for list in ["modules", "items", "methods"] {
        for inner in declaration[list].as_array().into_iter().flatten() {
            let name = inner["name"].as_str().unwrap_or_default();
            symbols(inner, &format!("{place}::{name}"), found);
        }
    }
}
