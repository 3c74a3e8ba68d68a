//! Modules, their files and aliases.

mod common;

use common::{bridge_of, export_of, json, made_by, written};

/// A bridge with one opaque.
fn bridge(name: &str) -> String {
    format!("#[diplomat::bridge] pub mod ffi {{ #[diplomat::opaque] pub struct {name}; }}")
}

/// What such a bridge makes.
fn made(name: &str) -> String {
    format!(
        r#"{{"name": "ffi", "items": [{{"kind": "opaque", "name": "{name}", "dtor_abi_name": "{name}_destroy"}}]}}"#
    )
}

#[test]
fn modules_without_bridges_are_left_out() {
    let text = format!(
        "mod empty {{ pub struct S<T>(T); }} mod deep {{ mod deeper {{ {} }} mod none {{}} }} #[cfg(test)] mod tests;",
        bridge("O")
    );
    let expected = format!(
        r#"{{"root": {{"modules": [{{"name": "deep", "modules": [{{"name": "deeper", "modules": [{}]}}]}}]}}}}"#,
        made("O")
    );
    assert_eq!(export_of(&text).unwrap(), json(&expected));
}

#[test]
fn a_module_within_a_bridge_is_a_bridge_where_it_is_marked() {
    let text = format!("#[diplomat::bridge] mod outer {{ mod plain {{ struct S<T>(T); }} {} }}", bridge("O"));
    let expected = format!(r#"{{"root": {{"modules": [{{"name": "outer", "modules": [{}]}}]}}}}"#, made("O"));
    assert_eq!(export_of(&text).unwrap(), json(&expected));
}

#[test]
fn files_of_modules() {
    let files = [
        ("lib.rs", "mod flat; mod nested; #[path = \"odd/place.rs\"] mod moved; mod inline { mod under; #[path = \"near.rs\"] mod by_path; }".to_owned()),
        ("flat.rs", "mod below; mod inline { mod under; } #[path = \"flat_beside.rs\"] mod beside;".to_owned()),
        ("flat/below.rs", bridge("A")),
        ("flat/inline/under.rs", bridge("B")),
        ("flat_beside.rs", bridge("C")),
        ("nested/mod.rs", "mod below;".to_owned()),
        ("nested/below.rs", bridge("D")),
        ("odd/place.rs", "mod below;".to_owned()),
        ("odd/below.rs", bridge("E")),
        ("inline/under.rs", bridge("F")),
        ("inline/near.rs", "#![diplomat::bridge] #[diplomat::opaque] struct G;".to_owned()),
    ];
    let files: Vec<(&str, &str)> = files.iter().map(|(name, text)| (*name, text.as_str())).collect();
    let root = written(&files).join("lib.rs");
    let one = |name: &str, inner: String| format!(r#"{{"name": "{name}", "modules": [{inner}]}}"#);
    let modules = [
        one(
            "flat",
            [
                one("below", made("A")),
                one("inline", one("under", made("B"))),
                one("beside", made("C")),
            ]
            .join(", "),
        ),
        one("nested", one("below", made("D"))),
        one("moved", one("below", made("E"))),
        one("inline", format!("{}, {}", one("under", made("F")), made("G").replace("ffi", "by_path"))),
    ];
    let expected = format!(r#"{{"root": {{"modules": [{}]}}}}"#, modules.join(", "));
    assert_eq!(made_by(&[&root.display().to_string()]).unwrap(), json(&expected));
}

#[test]
fn several_files_have_one_root() {
    let folder = written(&[
        ("a.rs", &bridge("A").replace("ffi", "a")),
        ("b.rs", &bridge("B").replace("ffi", "b")),
    ]);
    let (a, b) = (folder.join("a.rs").display().to_string(), folder.join("b.rs").display().to_string());
    let (made_a, made_b) = (made("A").replace("ffi", "a"), made("B").replace("ffi", "b"));
    let expected = format!(r#"{{"root": {{"modules": [{made_a}, {made_b}]}}}}"#);
    assert_eq!(made_by(&[&a, &b]).unwrap(), json(&expected));
    let fault = "a.rs: an earlier file has the name `a` in its root already";
    assert_eq!(made_by(&[&a, &b, &a]).unwrap_err(), [fault]);
}

#[test]
fn aliases() {
    let text = "
        use crate::a::{self, B, c::D as E, F as _, g::*};
        use super::H; use self::I; use J::K; use B::L;
        use std::cmp; use ::diplomat_runtime::DiplomatStr; use serde::{Serialize, Deserialize as De};
        use crate::a::B;
        #[diplomat::opaque] struct J;";
    let expected = r#"[
        {"name": "a", "target": ["crate", "a"]}, {"name": "B", "target": ["crate", "a", "B"]},
        {"name": "E", "target": ["crate", "a", "c", "D"]}, {"name": "H", "target": ["super", "H"]},
        {"name": "I", "target": ["self", "I"]}, {"name": "K", "target": ["J", "K"]}, {"name": "L", "target": ["B", "L"]}]"#;
    assert_eq!(bridge_of(text)["aliases"], json(expected));
}
