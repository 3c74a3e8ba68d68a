//! The words of the command.

mod common;

use bridge_export::settings::Settings;
use common::{json, made_by, written};

fn refusal(words: &[&str]) -> String {
    Settings::from_words(words.iter().map(|word| word.to_string())).expect_err("the words are wrong")
}

#[test]
fn the_backend() {
    let folder = written(&[
        ("lib.rs", ""),
        ("besides.json", r#"{"backend": {"name": "x", "unstable": ["u"]}, "config": {}}"#),
    ]);
    let (file, besides) =
        (folder.join("lib.rs").display().to_string(), folder.join("besides.json").display().to_string());
    assert_eq!(made_by(&[&file]).unwrap(), json(r#"{"root": {}}"#));
    let made = made_by(&["--backend", "js", &file, "--supports", "option, traits"]).unwrap();
    assert_eq!(made, json(r#"{"root": {}, "backend": {"name": "js", "supports": ["option", "traits"]}}"#));
    let made = made_by(&[&file, "--with", &besides]).unwrap();
    assert_eq!(made, json(r#"{"root": {}, "backend": {"name": "x", "unstable": ["u"]}, "config": {}}"#));
    let made = made_by(&["--backend", "js", &file, "--with", &besides]).unwrap();
    assert_eq!(made, json(r#"{"root": {}, "backend": {"name": "js", "unstable": ["u"]}, "config": {}}"#));
}

#[test]
fn symbols() {
    let file =
        written(&[("lib.rs", "#![diplomat::bridge] #[diplomat::opaque] struct O(u8); impl O { pub fn f() {} }")]);
    let file = file.join("lib.rs").display().to_string();
    let names = |which: &str| {
        let made = made_by(&[&file, "--symbols", which]).unwrap();
        let item = &made["root"]["items"][0];
        (item.get("dtor_abi_name").cloned(), item["methods"][0].get("abi_name").cloned())
    };
    assert_eq!(names("all"), (Some("O_destroy".into()), Some("O_f".into())));
    assert_eq!(names("none"), (None, None));
    assert_eq!(names("O_f"), (None, Some("O_f".into())));
}

#[test]
fn wrong_words() {
    let odd = written(&[("odd.json", r#"{"root": {}}"#)]).join("odd.json").display().to_string();
    assert_eq!(refusal(&[]), "no file is named");
    assert_eq!(refusal(&["a.rs", "--backend"]), "a value is missing after --backend");
    assert_eq!(refusal(&["a.rs", "--colour"]), "no option is named --colour");
    assert_eq!(refusal(&["a.rs", "--supports", "option,default"]), "a backend has no flag named default");
    assert_eq!(
        refusal(&["a.rs", "--with", &odd]),
        format!("{odd} has a key root, where only backend, config and docs may stand")
    );
}
