//! Attributes and documentation. What is expected was worked out by hand from docs/INPUT.md.

mod common;

use common::{bridge_of, item_of, json};

/// Attributes of a struct, and what stands under `attrs` of it.
const ATTRS: &[(&str, &str)] = &[
    ("#[diplomat::attr(auto, constructor)]", r#"{"marks": [{"if": "auto", "mark": ["constructor"]}]}"#),
    (
        "#[diplomat::attr(*, rename = \"x\")]",
        r#"{"marks": [{"if": "*", "mark": ["rename"], "value": {"str": "x"}}]}"#,
    ),
    (
        "#[diplomat::attr(js, getter(\"x\"))]",
        r#"{"marks": [{"if": {"backend": "js"}, "mark": ["getter"], "value": {"str": "x"}}]}"#,
    ),
    (
        "#[diplomat::attr(has = overloading, a::b)]",
        r#"{"marks": [{"if": {"pair": ["has", "overloading"]}, "mark": ["a", "b"]}]}"#,
    ),
    (
        "#[diplomat::attr(any(all(*, cpp, supports = \"x\"), not(auto), any()), disable)]",
        r#"{"marks": [{"mark": ["disable"], "if": {"any": [
            {"all": ["*", {"backend": "cpp"}, {"pair": ["supports", "x"]}]}, {"not": "auto"}, {"any": []}]}}]}"#,
    ),
    (
        "#[diplomat::attr(*, code(location = \"here\", n = 1, b = true,),)]",
        r#"{"marks": [{"if": "*", "mark": ["code"], "list": [
        {"name": "location", "value": {"str": "here"}}, {"name": "n", "value": {"int": "1"}}, {"name": "b", "value": {"bool": true}}]}]}"#,
    ),
    ("#[diplomat::attr(*, code())]", r#"{"marks": [{"if": "*", "mark": ["code"], "list": []}]}"#),
    (
        "#[diplomat::attr(*, v = 'é')] #[diplomat::attr(*, v = b'A')] #[diplomat::attr(*, v = 1.50)]",
        r#"{"marks": [
        {"if": "*", "mark": ["v"], "value": {"char": "é"}}, {"if": "*", "mark": ["v"], "value": {"byte": 65}},
        {"if": "*", "mark": ["v"], "value": {"float": "1.50"}}]}"#,
    ),
    (
        "#[diplomat::attr(*, v = 0x1F_u8)] #[diplomat::attr(*, v = -1)] #[diplomat::attr(*, v = b\"x\")]",
        r#"{"marks": [
        {"if": "*", "mark": ["v"], "value": {"int": "31"}}, {"if": "*", "mark": ["v"], "value": "other"},
        {"if": "*", "mark": ["v"], "value": "other"}]}"#,
    ),
    (
        "#[diplomat::attr(*, v = 170141183460469231731687303715884105728)]",
        r#"{"marks": [{"if": "*", "mark": ["v"], "value": {"int": "170141183460469231731687303715884105728"}}]}"#,
    ),
    (
        "#[diplomat::cfg(supports = option)]",
        r#"{"marks": [{"if": {"not": {"pair": ["supports", "option"]}}, "mark": ["disable"]}]}"#,
    ),
    ("#[diplomat::abi_rename = \"a{0}\"]", r#"{"abi_rename": "a{0}"}"#),
    ("#[diplomat::abi_rename(\"a\")]", r#"{"abi_rename": "a"}"#),
    ("#[deprecated]", r#"{"deprecated": ""}"#),
    ("#[deprecated = \"use x\"]", r#"{"deprecated": "use x"}"#),
    ("#[deprecated(since = \"1\", note = \"use x\")]", r#"{"deprecated": "use x"}"#),
    (
        "#[cfg(feature = \"a\")] #[cfg(any(unix, all(feature = \"b\", feature = \"a\")))] #[cfg(not(feature = \"c\"))]",
        r#"{"features": ["a", "b"]}"#,
    ),
];

#[test]
fn attrs() {
    for (attributes, expected) in ATTRS {
        assert_eq!(item_of(&format!("{attributes} struct S;"))["attrs"], json(expected), "of {attributes}");
    }
}

#[test]
fn what_says_nothing_of_declarations_is_left_out() {
    let attributes = "
        #[derive(Debug)] #[repr(C)] #[non_exhaustive] #[cfg_attr(feature = \"serde\", derive(Serialize))] #[cfg(unix)]
        #[diplomat::demo(generate)] #[diplomat::transparent_convert] #[doc(hidden)]";
    assert_eq!(item_of(&format!("{attributes} struct S;")), json(r#"{"kind": "struct", "name": "S"}"#));
}

/// Attributes of a struct, and what stands under `docs` of it.
const DOCS: &[(&str, &str)] = &[
    ("/// One.\n", r#"{"blocks": [{"if": "*", "lines": "One."}]}"#),
    ("/// One.\n///\n///   Two. \n", r#"{"blocks": [{"if": "*", "lines": "One.\n\nTwo."}]}"#),
    ("///\n/// One.\n#[doc = \" Two.\"]", r#"{"blocks": [{"if": "*", "lines": "One.\nTwo."}]}"#),
    ("/** One. */", r#"{"blocks": [{"if": "*", "lines": "One."}]}"#),
    ("///\n", r#"null"#),
    ("/// One.\n#[diplomat::docs(js)]\n/// Two.\n/// Three.\n#[diplomat::docs(not(js))]\n#[diplomat::docs(*)]\n/// Four.\n",
        r#"{"blocks": [{"if": "*", "lines": "One."}, {"if": {"backend": "js"}, "lines": "Two.\nThree."},
            {"if": "*", "lines": "Four."}]}"#),
    ("#[diplomat::rust_link(a::B, Struct)] #[diplomat::rust_link(a, Mod, hidden)] #[diplomat::rust_link(a::B::c, FnInEnum, compact)]",
        r#"{"links": [{"path": ["a", "B"], "kind": "Struct", "display": "normal"},
            {"path": ["a"], "kind": "Mod", "display": "hidden"}, {"path": ["a", "B", "c"], "kind": "FnInEnum", "display": "compact"}]}"#),
];

#[test]
fn docs() {
    for (attributes, expected) in DOCS {
        assert_eq!(item_of(&format!("{attributes} struct S;"))["docs"], json(expected), "of {attributes}");
    }
}

#[test]
fn attributes_stand_where_they_are_written() {
    let text = "
        enum E { /// Doc.
            #[diplomat::attr(*, default)] A }
        struct S { /** Doc. */ #[deprecated] x: u8 }
        trait T { /** Doc. */ #[diplomat::attr(*, disable)] fn f(&self); }
        /** Doc. */ pub fn f(#[diplomat::attr(*, default_value = 1)] x: u8) {}";
    let docs = r#"{"blocks": [{"if": "*", "lines": "Doc."}]}"#;
    let expected = format!(
        r#"{{"items": [
        {{"kind": "enum", "name": "E", "variants": [{{"name": "A", "discriminant": 0, "docs": {docs},
            "attrs": {{"marks": [{{"if": "*", "mark": ["default"]}}]}}}}]}},
        {{"kind": "struct", "name": "S", "fields": [{{"name": "x", "ty": "u8", "docs": {docs}, "attrs": {{"deprecated": ""}}}}]}},
        {{"kind": "trait", "name": "T", "methods": [{{"name": "f", "docs": {docs},
            "self": {{"reference": {{"lifetime": "_"}}, "path": {{"segments": ["T"]}}}},
            "attrs": {{"marks": [{{"if": "*", "mark": ["disable"]}}]}}}}]}},
        {{"kind": "function", "name": "f", "abi_name": "diplomat_external_f", "docs": {docs},
            "params": [{{"name": "x", "ty": "u8",
                "attrs": {{"marks": [{{"if": "*", "mark": ["default_value"], "value": {{"int": "1"}}}}]}}}}]}}]}}"#
    );
    assert_eq!(bridge_of(text), json(&expected));
}

#[test]
fn what_is_handed_down() {
    let text = r#"
        #[diplomat::bridge]
        #[diplomat::abi_rename = "m_{0}"]
        #[diplomat::attr(js, namespace = "n")]
        #[cfg(feature = "m")]
        #[deprecated]
        mod ffi {
            #[diplomat::opaque]
            struct O(u8);
            #[diplomat::abi_rename = "i_{0}"]
            #[diplomat::attr(js, disable)]
            #[cfg(feature = "i")]
            #[deprecated]
            impl O {
                #[cfg(feature = "own")]
                #[diplomat::attr(*, getter)]
                pub fn inner() {}
                #[diplomat::abi_rename = "alone"]
                pub fn named() {}
            }
            impl O { pub fn plain() {} }
            #[diplomat::abi_rename = "t_{0}"]
            trait T { fn f(); }
            enum E { A }
            pub fn f(x: u8) {}
        }"#;
    let ffi = &common::export_of(text).unwrap()["root"]["modules"][0];
    let attrs = |place: &str| ffi.pointer(place).cloned().unwrap_or_default();
    let own = json(
        r#"{"abi_rename": "m_{0}", "features": ["m"], "deprecated": "",
        "marks": [{"if": {"backend": "js"}, "mark": ["namespace"], "value": {"str": "n"}}]}"#,
    );
    let taken_over = json(r#"{"abi_rename": "m_{0}", "features": ["m"]}"#);
    assert_eq!(ffi["attrs"], own);
    // A module's pattern and features reach its items and methods, but not its marks, which `check` hands down.
    assert_eq!(attrs("/items/0/attrs"), taken_over);
    assert_eq!(attrs("/items/0/dtor_abi_name"), "m_O_destroy");
    assert_eq!(attrs("/items/0/methods/2/attrs"), taken_over);
    assert_eq!(attrs("/items/0/methods/2/abi_name"), "m_O_plain");
    assert_eq!(attrs("/items/3/attrs"), taken_over);
    assert_eq!(attrs("/items/3/abi_name"), "m_diplomat_external_f");
    // An impl block is no declaration, so its marks are written at its methods.
    let disable = r#"{"if": {"backend": "js"}, "mark": ["disable"]}"#;
    assert_eq!(
        attrs("/items/0/methods/0/attrs"),
        json(&format!(
            r#"{{"abi_rename": "i_{{0}}", "features": ["m", "i", "own"],
        "marks": [{disable}, {{"if": "*", "mark": ["getter"]}}]}}"#
        ))
    );
    assert_eq!(attrs("/items/0/methods/0/abi_name"), "i_O_inner");
    assert_eq!(attrs("/items/0/methods/1/attrs/abi_rename"), "alone");
    assert_eq!(attrs("/items/0/methods/1/abi_name"), "alone");
    // Methods of traits take over the trait's; variants take over features alone; parameters nothing.
    assert_eq!(attrs("/items/1/methods/0/attrs"), json(r#"{"abi_rename": "t_{0}", "features": ["m"]}"#));
    assert_eq!(attrs("/items/2/variants/0/attrs"), json(r#"{"features": ["m"]}"#));
    assert_eq!(ffi.pointer("/items/3/params/0/attrs"), None);
}

#[test]
fn a_pattern_without_a_place_for_the_name_is_not_handed_down() {
    let text = r##"#[diplomat::bridge] #[diplomat::abi_rename = "one"] mod ffi { #[diplomat::opaque] struct O(u8); }"##;
    let ffi = &common::export_of(text).unwrap()["root"]["modules"][0];
    let expected = r#"{"name": "ffi", "attrs": {"abi_rename": "one"}, "items": [
        {"kind": "opaque", "name": "O", "dtor_abi_name": "O_destroy"}]}"#;
    assert_eq!(*ffi, json(expected));
}
