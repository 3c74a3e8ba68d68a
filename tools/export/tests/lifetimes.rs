//! Lifetimes and their bounds. What is expected was worked out by hand.

mod common;

use common::{item_of, json};

/// Functions, and their lists of lifetimes.
const FUNCTIONS: &[(&str, &str)] = &[
    ("f<'a, 'b: 'a>()", r#"[{"name": "a", "longer": [1]}, {"name": "b", "shorter": [0]}]"#),
    // Only direct bounds stand.
    (
        "f<'a, 'b: 'a, 'c: 'b>()",
        r#"[{"name": "a", "longer": [1]}, {"name": "b", "shorter": [0], "longer": [2]}, {"name": "c", "shorter": [1]}]"#,
    ),
    (
        "f<'a, 'b, 'c>() where 'c: 'a + 'b",
        r#"[{"name": "a", "longer": [2]}, {"name": "b", "longer": [2]}, {"name": "c", "shorter": [0, 1]}]"#,
    ),
    (
        "f<'a: 'b, 'b: 'a>()",
        r#"[{"name": "a", "longer": [1], "shorter": [1]}, {"name": "b", "longer": [0], "shorter": [0]}]"#,
    ),
    ("f<'a: 'a>()", r#"[{"name": "a", "longer": [0], "shorter": [0]}]"#),
    // A bound that is written and implied, or written twice, stands once.
    (
        "f<'a, 'b: 'a + 'a>(x: &'a Foo<'b>) where 'b: 'a",
        r#"[{"name": "a", "longer": [1]}, {"name": "b", "shorter": [0]}]"#,
    ),
    // A reference implies that what it leads to outlives it; to itself nothing needs to be said.
    ("f<'a, 'b>(x: &'a Foo<'b>)", r#"[{"name": "a", "longer": [1]}, {"name": "b", "shorter": [0]}]"#),
    ("f<'a, 'b>() -> &'a Foo<'b>", r#"[{"name": "a", "longer": [1]}, {"name": "b", "shorter": [0]}]"#),
    ("f<'a>(x: &'a Foo<'a>)", r#"[{"name": "a"}]"#),
    ("f<'a, 'b>(x: Foo<'a, 'b>, y: &Foo<'a>, z: &'static Foo<'b>)", r#"[{"name": "a"}, {"name": "b"}]"#),
    (
        "f<'a, 'b, 'c>(x: &'a &'b Foo<'c>)",
        r#"[{"name": "a", "longer": [1]}, {"name": "b", "shorter": [0], "longer": [2]}, {"name": "c", "shorter": [1]}]"#,
    ),
    // What follows from other bounds isn't added.
    (
        "f<'a, 'b: 'a, 'c: 'b>(x: &'a Foo<'c>)",
        r#"[{"name": "a", "longer": [1]}, {"name": "b", "shorter": [0], "longer": [2]}, {"name": "c", "shorter": [1]}]"#,
    ),
    (
        "f<'a: 'b, 'b: 'a>(x: &'a Foo<'b>)",
        r#"[{"name": "a", "longer": [1], "shorter": [1]}, {"name": "b", "longer": [0], "shorter": [0]}]"#,
    ),
    // An anonymous reference between two lifetimes hides nothing.
    ("f<'a, 'b>(x: &'a &Foo<'b>)", r#"[{"name": "a", "longer": [1]}, {"name": "b", "shorter": [0]}]"#),
    (
        "f<'a, 'b>(x: Option<&'a [&'b Foo]>)",
        r#"[{"name": "a", "longer": [1]}, {"name": "b", "shorter": [0]}]"#,
    ),
    (
        "f<'a, 'b>(x: DiplomatSlice<'a, Foo<'b>>)",
        r#"[{"name": "a", "longer": [1]}, {"name": "b", "shorter": [0]}]"#,
    ),
    (
        "f<'a, 'b>() -> Result<Box<Foo>, &'a &'b str>",
        r#"[{"name": "a", "longer": [1]}, {"name": "b", "shorter": [0]}]"#,
    ),
    ("f<'a, 'b>(x: &'a &'b [u8])", r#"[{"name": "a", "longer": [1]}, {"name": "b", "shorter": [0]}]"#),
    // What a callback takes is bound where it is called.
    ("f<'a, 'b>(x: impl Fn(&'a Foo<'b>))", r#"[{"name": "a"}, {"name": "b"}]"#),
    // An undeclared lifetime is for `check` to tell.
    ("f<'a>(x: &'a Foo<'z>)", r#"[{"name": "a"}]"#),
];

#[test]
fn functions() {
    for (signature, expected) in FUNCTIONS {
        let clause = signature.find(" where").unwrap_or(signature.len());
        let (head, clause) = signature.split_at(clause);
        let item = item_of(&format!("pub fn {head} {clause} {{}}"));
        assert_eq!(item["lifetimes"], json(expected), "of {signature}");
    }
}

#[test]
fn fields_imply_bounds_too() {
    let item = item_of("struct S<'a, 'b, 'c> { x: &'a Foo<'b>, y: Option<&'b [Foo<'c>]> }");
    let expected = r#"[{"name": "a", "longer": [1]}, {"name": "b", "shorter": [0], "longer": [2]}, {"name": "c", "shorter": [1]}]"#;
    assert_eq!(item["lifetimes"], json(expected));
    // Those of an opaque aren't looked at: they stay on Rust's side.
    let item = item_of("#[diplomat::opaque] struct S<'a, 'b>(&'a Foo<'b>);");
    assert_eq!(item["lifetimes"], json(r#"[{"name": "a"}, {"name": "b"}]"#));
}

#[test]
fn lifetimes_of_an_impl_block_come_first() {
    let text = "
        #[diplomat::opaque] struct S<'s, 't>(u8);
        impl<'s, 't: 's> S<'s, 't> { pub fn f<'a>(&'a self) -> &'a Foo<'s> where 's: 'a {} }";
    // That 't outlives 'a too, as the receiver implies, follows from the two bounds that are written.
    let expected = r#"[
        {"name": "s", "longer": [1], "shorter": [2]}, {"name": "t", "shorter": [0]}, {"name": "a", "longer": [0]}]"#;
    assert_eq!(item_of(text)["methods"][0]["lifetimes"], json(expected));
    let text = "
        #[diplomat::opaque] struct S<'s, 't>(u8);
        impl<'s, 't> S<'s, 't> { pub fn f<'a>(&'a self) {} }";
    let expected = r#"[{"name": "s", "shorter": [2]}, {"name": "t", "shorter": [2]}, {"name": "a", "longer": [0, 1]}]"#;
    assert_eq!(item_of(text)["methods"][0]["lifetimes"], json(expected));
}
