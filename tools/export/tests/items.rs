//! Items and their methods. What is expected was worked out by hand from docs/INPUT.md.

mod common;

use common::{bridge_of, item_of, json};

/// Bridges of one item, and what the item is.
const ITEMS: &[(&str, &str)] = &[
    ("pub struct S;", r#"{"kind": "struct", "name": "S"}"#),
    ("struct S { pub x: u8, y: bool }", r#"{"kind": "struct", "name": "S", "fields": [
        {"name": "x", "ty": "u8"}, {"name": "y", "ty": "bool"}]}"#),
    ("#[diplomat::out] struct S<'a> { x: &'a [u8] }", r#"{"kind": "out_struct", "name": "S", "lifetimes": [{"name": "a"}],
        "fields": [{"name": "x", "ty": {"slice": {"lifetime": "a", "of": "u8", "std": true}}}]}"#),
    ("#[diplomat::opaque] struct O<'a>(Vec<&'a [String; 3]>);", r#"{"kind": "opaque", "name": "O",
        "lifetimes": [{"name": "a"}], "dtor_abi_name": "O_destroy"}"#),
    ("#[diplomat::opaque] enum O { A(u8), B { x: *const u8 } }",
        r#"{"kind": "opaque", "name": "O", "dtor_abi_name": "O_destroy"}"#),
    ("#[diplomat::opaque_mut] struct r#O { x: u8 }",
        r#"{"kind": "opaque", "name": "r#O", "mutable": true, "dtor_abi_name": "O_destroy"}"#),
    ("enum E {}", r#"{"kind": "enum", "name": "E"}"#),
    ("enum E { A, B = 7, C, D = -2, E, F = 0x10, G = (-(-3)) }", r#"{"kind": "enum", "name": "E", "variants": [
        {"name": "A", "discriminant": 0}, {"name": "B", "discriminant": 7}, {"name": "C", "discriminant": 8},
        {"name": "D", "discriminant": -2}, {"name": "E", "discriminant": -1}, {"name": "F", "discriminant": 16},
        {"name": "G", "discriminant": 3}]}"#),
    ("enum E { A = -9223372036854775808, B = 9223372036854775807 }", r#"{"kind": "enum", "name": "E", "variants": [
        {"name": "A", "discriminant": -9223372036854775808}, {"name": "B", "discriminant": 9223372036854775807}]}"#),
    ("trait T: Send + std::marker::Sync + 'static { fn f(&self, n: u32) -> bool; fn g(); }", r#"{"kind": "trait", "name": "T",
        "is_send": true, "is_sync": true, "methods": [
        {"name": "f", "self": {"reference": {"lifetime": "_"}, "path": {"segments": ["T"]}},
         "params": [{"name": "n", "ty": "u32"}], "ret": "bool"}, {"name": "g"}]}"#),
    ("trait T<'t> { fn f<'a>(&'a self); fn g<'a>(&self, x: &'t Foo<'a>) {} }", r#"{"kind": "trait", "name": "T",
        "lifetimes": [{"name": "t"}], "methods": [
        {"name": "f", "self": {"reference": {"lifetime": "a"}, "path": {"segments": ["T"]}}, "lifetimes": [{"name": "a"}]},
        {"name": "g", "self": {"reference": {"lifetime": "_"}, "path": {"segments": ["T"]}},
         "lifetimes": [{"name": "t", "longer": [1]}, {"name": "a", "shorter": [0]}],
         "params": [{"name": "x", "ty": {"ref": {"lifetime": "t", "to": {"named": {"segments": ["Foo"], "lifetimes": ["a"]}}}}}]}]}"#),
    ("pub fn f<'x>(mut t: &'x str) -> bool { true }", r#"{"kind": "function", "name": "f", "abi_name": "diplomat_external_f",
        "lifetimes": [{"name": "x"}],
        "params": [{"name": "t", "ty": {"str": {"lifetime": "x", "encoding": "utf8", "std": true}}}], "ret": "bool"}"#),
    ("pub fn f() {} fn g(x: Vec<u8>) {} pub(crate) fn h(x: [u8; 2]) {}",
        r#"{"kind": "function", "name": "f", "abi_name": "diplomat_external_f"}"#),
    ("struct S; const C: u8 = 0; static T: u8 = 0; type A = Vec<u8>; macro_rules! m { () => {} } impl Clone for S {}",
        r#"{"kind": "struct", "name": "S"}"#),
    ("struct S; #[cfg(test)] struct T; #[cfg(all(test, unix))] pub fn f() {}", r#"{"kind": "struct", "name": "S"}"#),
];

#[test]
fn items() {
    for (text, expected) in ITEMS {
        assert_eq!(item_of(text), json(expected), "of {text}");
    }
}

/// Methods of `struct S<'s>` in `impl<'s> S<'s>`, and what they are but for their `self_type`.
const METHODS: &[(&str, &str)] = &[
    (
        "pub fn f(self) {}",
        r#"{"name": "f", "abi_name": "S_f", "self": {"path": {"segments": ["S"], "lifetimes": ["s"]}},
        "lifetimes": [{"name": "s"}]}"#,
    ),
    (
        "pub fn f(mut self: Self) {}",
        r#"{"name": "f", "abi_name": "S_f", "self": {"path": {"segments": ["S"], "lifetimes": ["s"]}},
        "lifetimes": [{"name": "s"}]}"#,
    ),
    (
        "pub fn f(&mut self) {}",
        r#"{"name": "f", "abi_name": "S_f", "self": {
        "reference": {"lifetime": "_", "mutable": true}, "path": {"segments": ["S"], "lifetimes": ["s"]}},
        "lifetimes": [{"name": "s"}]}"#,
    ),
    (
        "pub fn f<'a>(self: &'a S<'s>) {}",
        r#"{"name": "f", "abi_name": "S_f", "self": {
        "reference": {"lifetime": "a"}, "path": {"segments": ["S"], "lifetimes": ["s"]}},
        "lifetimes": [{"name": "s", "shorter": [1]}, {"name": "a", "longer": [0]}]}"#,
    ),
    (
        "pub fn r#match(#[diplomat::attr(*, precondition_violation)] &self) {}",
        r#"{"name": "r#match", "abi_name": "S_match",
        "self": {"reference": {"lifetime": "_"}, "path": {"segments": ["S"], "lifetimes": ["s"]},
                 "attrs": {"marks": [{"if": "*", "mark": ["precondition_violation"]}]}},
        "lifetimes": [{"name": "s"}]}"#,
    ),
];

#[test]
fn methods() {
    for (method, expected) in METHODS {
        let item = item_of(&format!("#[diplomat::opaque] struct S<'s>(u8); impl<'s> S<'s> {{ {method} }}"));
        let mut expected = json(expected);
        expected["self_type"] = json(r#"{"segments": ["S"], "lifetimes": ["s"]}"#);
        assert_eq!(item["methods"], json(&format!("[{expected}]")), "of {method}");
    }
}

#[test]
fn impl_blocks_are_merged_into_their_types_in_order() {
    let text = "
        impl<'x> S<'x> { pub fn first() {} fn hidden(x: [u8; 2]) {} pub(crate) fn too() {} pub const C: u8 = 0; }
        #[diplomat::opaque] struct S<'x>(u8);
        enum E { A }
        impl E { pub fn only(self) {} }
        impl S<'_> { pub fn second<'a>() {} }
        impl Drop for S<'_> { fn drop(&mut self) {} }";
    let expected = r#"{"items": [
        {"kind": "opaque", "name": "S", "lifetimes": [{"name": "x"}], "dtor_abi_name": "S_destroy", "methods": [
            {"name": "first", "abi_name": "S_first", "self_type": {"segments": ["S"], "lifetimes": ["x"]},
             "lifetimes": [{"name": "x"}]},
            {"name": "second", "abi_name": "S_second", "self_type": {"segments": ["S"], "lifetimes": ["_"]},
             "lifetimes": [{"name": "a"}]}]},
        {"kind": "enum", "name": "E", "variants": [{"name": "A", "discriminant": 0}], "methods": [
            {"name": "only", "abi_name": "E_only", "self_type": {"segments": ["E"]}, "self": {"path": {"segments": ["E"]}}}]}]}"#;
    assert_eq!(bridge_of(text), json(expected));
}
