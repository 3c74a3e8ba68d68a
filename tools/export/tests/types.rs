//! The spellings of types. What is expected was worked out from the table of types in docs/INPUT.md.

mod common;

use common::{bridge_of, json};

/// Spellings of a parameter's type in a method of `impl<'a> Foo<'a>`, and the types that they are.
const PARAMETERS: &[(&str, &str)] = &[
    ("i8", r#""i8""#),
    ("u8", r#""u8""#),
    ("i16", r#""i16""#),
    ("u16", r#""u16""#),
    ("i32", r#""i32""#),
    ("u32", r#""u32""#),
    ("i64", r#""i64""#),
    ("u64", r#""u64""#),
    ("isize", r#""isize""#),
    ("usize", r#""usize""#),
    ("i128", r#""i128""#),
    ("u128", r#""u128""#),
    ("f32", r#""f32""#),
    ("f64", r#""f64""#),
    ("bool", r#""bool""#),
    ("DiplomatChar", r#""char""#),
    ("DiplomatByte", r#""byte""#),
    ("diplomat_runtime::DiplomatByte", r#""byte""#),
    ("std::primitive::u8", r#""u8""#),
    ("()", r#""unit""#),
    ("Ordering", r#""ordering""#),
    ("cmp::Ordering", r#""ordering""#),
    ("core::cmp::Ordering", r#""ordering""#),
    ("Bar", r#"{"named": {"segments": ["Bar"]}}"#),
    ("(Bar)", r#"{"named": {"segments": ["Bar"]}}"#),
    ("r#Bar", r#"{"named": {"segments": ["r#Bar"]}}"#),
    (
        "crate::other::Bar<'a, '_, 'static>",
        r#"{"named": {"segments": ["crate", "other", "Bar"], "lifetimes": ["a", "_", "static"]}}"#,
    ),
    ("super::Bar", r#"{"named": {"segments": ["super", "Bar"]}}"#),
    ("Self", r#"{"self": {"segments": ["Foo"], "lifetimes": ["a"]}}"#),
    ("&Self", r#"{"ref": {"lifetime": "_", "to": {"self": {"segments": ["Foo"], "lifetimes": ["a"]}}}}"#),
    (
        "&'a mut Bar",
        r#"{"ref": {"lifetime": "a", "mutable": true, "to": {"named": {"segments": ["Bar"]}}}}"#,
    ),
    ("&'static Bar", r#"{"ref": {"lifetime": "static", "to": {"named": {"segments": ["Bar"]}}}}"#),
    ("&&u8", r#"{"ref": {"lifetime": "_", "to": {"ref": {"lifetime": "_", "to": "u8"}}}}"#),
    ("Box<Bar>", r#"{"box": {"named": {"segments": ["Bar"]}}}"#),
    ("std::boxed::Box<Self>", r#"{"box": {"self": {"segments": ["Foo"], "lifetimes": ["a"]}}}"#),
    ("Option<u8>", r#"{"option": "u8"}"#),
    ("core::option::Option<Box<Bar>>", r#"{"option": {"box": {"named": {"segments": ["Bar"]}}}}"#),
    ("DiplomatOption<u8>", r#"{"diplomat_option": "u8"}"#),
    (
        "Option<&'a Bar>",
        r#"{"option": {"ref": {"lifetime": "a", "to": {"named": {"segments": ["Bar"]}}}}}"#,
    ),
    ("Result<(), u8>", r#"{"result": {"ok": "unit", "err": "u8"}}"#),
    (
        "DiplomatResult<Box<Bar>, ()>",
        r#"{"diplomat_result": {"ok": {"box": {"named": {"segments": ["Bar"]}}}, "err": "unit"}}"#,
    ),
    ("&mut DiplomatWrite", r#"{"ref": {"lifetime": "_", "mutable": true, "to": {"write": "str"}}}"#),
    ("&mut DiplomatWrite16", r#"{"ref": {"lifetime": "_", "mutable": true, "to": {"write": "str16"}}}"#),
    (
        "&mut DiplomatWriteGeneric<u32>",
        r#"{"ref": {"lifetime": "_", "mutable": true, "to": {"write": "u32"}}}"#,
    ),
    ("&str", r#"{"str": {"lifetime": "_", "encoding": "utf8", "std": true}}"#),
    ("&'a DiplomatStr", r#"{"str": {"lifetime": "a", "encoding": "unvalidated_utf8"}}"#),
    ("&'static DiplomatStr16", r#"{"str": {"lifetime": "static", "encoding": "unvalidated_utf16"}}"#),
    ("DiplomatStrSlice<'a>", r#"{"str": {"lifetime": "a", "encoding": "unvalidated_utf8"}}"#),
    ("DiplomatStr16Slice", r#"{"str": {"lifetime": "_", "encoding": "unvalidated_utf16"}}"#),
    ("DiplomatUtf8StrSlice<'_>", r#"{"str": {"lifetime": "_", "encoding": "utf8"}}"#),
    ("Box<str>", r#"{"str": {"encoding": "utf8", "std": true}}"#),
    ("Box<DiplomatStr>", r#"{"str": {"encoding": "unvalidated_utf8"}}"#),
    ("DiplomatOwnedStr16Slice", r#"{"str": {"encoding": "unvalidated_utf16"}}"#),
    ("&[&str]", r#"{"strs": {"encoding": "utf8", "std": true}}"#),
    ("&[&DiplomatStr]", r#"{"strs": {"encoding": "unvalidated_utf8"}}"#),
    ("&'a [DiplomatStrSlice<'a>]", r#"{"strs": {"encoding": "unvalidated_utf8"}}"#),
    ("DiplomatSlice<DiplomatUtf8StrSlice>", r#"{"strs": {"encoding": "utf8"}}"#),
    ("&[u8]", r#"{"slice": {"lifetime": "_", "of": "u8", "std": true}}"#),
    ("&'a mut [f64]", r#"{"slice": {"lifetime": "a", "mutable": true, "of": "f64", "std": true}}"#),
    ("&[DiplomatByte]", r#"{"slice": {"lifetime": "_", "of": "byte", "std": true}}"#),
    ("DiplomatSlice<'a, u16>", r#"{"slice": {"lifetime": "a", "of": "u16"}}"#),
    ("DiplomatSlice<i32>", r#"{"slice": {"lifetime": "_", "of": "i32"}}"#),
    ("DiplomatSliceMut<'a, f32>", r#"{"slice": {"lifetime": "a", "mutable": true, "of": "f32"}}"#),
    ("Box<[u8]>", r#"{"slice": {"of": "u8", "std": true}}"#),
    ("DiplomatOwnedSlice<i8>", r#"{"slice": {"of": "i8"}}"#),
    (
        "&'a [Bar]",
        r#"{"custom_slice": {"lifetime": "a", "of": {"named": {"segments": ["Bar"]}}, "std": true}}"#,
    ),
    (
        "&mut [&'a Bar]",
        r#"{"custom_slice": {"lifetime": "_", "mutable": true, "of": {"ref": {"lifetime": "a", "to": {"named": {"segments": ["Bar"]}}}}, "std": true}}"#,
    ),
    (
        "DiplomatSlice<'a, Bar>",
        r#"{"custom_slice": {"lifetime": "a", "of": {"named": {"segments": ["Bar"]}}}}"#,
    ),
    ("Box<[Bar]>", r#"{"custom_slice": {"of": {"named": {"segments": ["Bar"]}}, "std": true}}"#),
    ("impl Fn()", r#"{"fn": {}}"#),
    ("impl Fn() -> ()", r#"{"fn": {"ret": "unit"}}"#),
    (
        "impl FnMut(u8, &Bar) -> u8 + Send + 'static",
        r#"{"fn": {"params": ["u8", {"ref": {"lifetime": "_", "to": {"named": {"segments": ["Bar"]}}}}], "ret": "u8", "mutable": true}}"#,
    ),
    ("impl std::ops::Fn(u8)", r#"{"fn": {"params": ["u8"]}}"#),
    ("impl Sink<'a>", r#"{"impl": {"segments": ["Sink"], "lifetimes": ["a"]}}"#),
    ("impl crate::Sink + 'a", r#"{"impl": {"segments": ["crate", "Sink"]}}"#),
];

fn assert_is_exported_as(spelling: &str, expected: &str) {
    let text = format!("#[diplomat::opaque] struct Foo<'a>(u8); impl<'a> Foo<'a> {{ pub fn f(p: {spelling}) {{}} }}");
    let params = &bridge_of(&text)["items"][0]["methods"][0]["params"];
    let expected = format!(r#"[{{"name": "p", "ty": {expected}}}]"#);
    assert_eq!(*params, json(&expected), "of {spelling}");
}

#[test]
fn parameters() {
    for (spelling, expected) in PARAMETERS {
        assert_is_exported_as(spelling, expected);
    }
}

/// What stands between backquotes in a cell of a table.
fn quoted(cell: &str) -> Vec<&str> {
    cell.split('`').skip(1).step_by(2).collect()
}

#[test]
fn rows_of_the_documented_table() {
    let page = include_str!("../../../docs/INPUT.md");
    let (_, from_types) = page.split_once("## From Rust").expect("the page tells of what is written in Rust");
    let (types, _) = from_types.split_once("A receiver is no type").expect("the page tells of receivers after types");
    let mut tested = 0;
    for row in types.lines().filter(|line| line.starts_with("| `")) {
        let (rust, as_json) = row.trim_matches(['|', ' ']).split_once(" | ").expect("a row has two cells");
        let (spellings, forms) = (quoted(rust), quoted(as_json));
        assert!(forms.len() == 1 || forms.len() == spellings.len(), "each has its form in {row}");
        for (spelling, form) in spellings.iter().zip(forms.iter().cycle()) {
            assert_is_exported_as(spelling, form);
            tested += 1;
        }
    }
    assert_eq!(tested, 44);
}

#[test]
fn returns_are_types_too() {
    let method = |ret: &str| {
        let text = format!("struct Foo; impl Foo {{ pub fn f() {ret} {{}} }}");
        bridge_of(&text)["items"][0]["methods"][0].clone()
    };
    assert_eq!(method("").get("ret"), None);
    assert_eq!(method("-> ()")["ret"], json(r#""unit""#));
    assert_eq!(
        method("-> Option<Box<Self>>")["ret"],
        json(r#"{"option": {"box": {"self": {"segments": ["Foo"]}}}}"#)
    );
}

#[test]
fn self_in_a_struct_has_all_its_lifetimes() {
    let fields = &bridge_of("struct Foo<'x, 'y> { f: &'x Self }")["items"][0]["fields"];
    let expected = r#"[{"name": "f", "ty": {"ref": {"lifetime": "x", "to": {"self": {"segments": ["Foo"], "lifetimes": ["x", "y"]}}}}}]"#;
    assert_eq!(*fields, json(expected));
}

#[test]
fn an_ordering_of_the_bridge_is_its_own() {
    let ret = |text: &str| bridge_of(text)["items"][0]["ret"].clone();
    let named = json(r#"{"named": {"segments": ["Ordering"]}}"#);
    assert_eq!(ret("pub fn f() -> Ordering {} enum Ordering {}"), named);
    assert_eq!(ret("pub fn f() -> Ordering {} use super::Ordering;"), named);
    assert_eq!(ret("pub fn f() -> Ordering {} use std::cmp::Ordering;"), json(r#""ordering""#));
    assert_eq!(ret("pub fn f() -> std::cmp::Ordering {} enum Ordering {}"), json(r#""ordering""#));
}
