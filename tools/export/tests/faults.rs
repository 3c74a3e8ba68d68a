//! What can't be exported: each fault with its line and column.

mod common;

use common::{export_of, faults_of, made_by, written};

/// Bridges, and the faults of each. The text begins at column 22 of line 1.
const FAULTS: &[(&str, &[&str])] = &[
    ("struct S(u8);", &["1:30: the fields of a struct on the bridge have names"]),
    (
        "struct S<T> { x: [T; 2], y: u8, z: *const u8 }",
        &[
            "1:31: only lifetimes can be generic",
            "1:39: an array can't be exported; try a slice",
            "1:57: a raw pointer can't be exported; try a reference",
        ],
    ),
    (
        "struct S { x: char, y: Vec<u8>, z: (u8, u8) }",
        &[
            "1:36: this can't cross the bridge; try `DiplomatChar`",
            "1:49: a type of the bridge has no generic types",
            "1:57: a tuple can't be exported; try a struct",
        ],
    ),
    ("enum E { A(u8), B }", &["1:32: a variant on the bridge has no fields"]),
    ("enum E { A = 1 << 3, B }", &["1:35: a discriminant is a whole number of 64 bits, written as such"]),
    (
        "enum E { A = 9223372036854775807, B }",
        &["1:56: a discriminant is a whole number of 64 bits, written as such"],
    ),
    ("enum E<'a> { A }", &["1:29: an enum on the bridge has no generics"]),
    (
        "#[diplomat::opaque] #[diplomat::out] struct S;",
        &["1:42: a declaration is marked in this way at most once"],
    ),
    ("#[diplomat::opaque] pub fn f() {}", &["1:49: what this is marked as has no meaning here"]),
    ("struct S { #[diplomat::opaque] x: u8 }", &["1:33: this attribute has no meaning here"]),
    (
        "pub fn f<'a: 'static, 'b: 'z>() where u8: Copy {}",
        &[
            "1:35: a bound to `'static` can't be exported; write `'static` in place of the lifetime",
            "1:48: the lifetime `'z` isn't declared",
            "1:60: only lifetimes can have bounds",
        ],
    ),
    (
        "pub async fn f(_: u8) {}",
        &[
            "1:26: an async function can't be exported",
            "1:37: a parameter of the bridge has a name, and no pattern",
        ],
    ),
    (
        "pub fn f(x: impl FnOnce(), y: impl for<'a> Fn(&'a u8), z: fn(), w: dyn Fn(), v: impl Copy + Clone) {}",
        &[
            "1:39: a callback is `impl Fn` or `impl FnMut`",
            "1:57: lifetimes of `for<..>` can't be exported; leave them anonymous",
            "1:80: a function pointer can't be exported; try `impl Fn`",
            "1:89: a trait object can't be exported; try `impl`",
            "1:102: a type is `impl` of exactly one trait",
        ],
    ),
    (
        "pub fn f(x: &mut str, y: str, z: [u8], w: Box<[&str]>, v: &mut [&str]) {}",
        &[
            "1:34: strings aren't mutable",
            "1:47: this stands only behind a reference or a box",
            "1:55: a slice stands only behind a reference or a box",
            "1:69: a list of strings is neither owned nor mutable",
            "1:86: a list of strings is neither owned nor mutable",
        ],
    ),
    (
        "pub fn f(x: Result<u8>, y: u8<'a>, z: DiplomatWriteGeneric<bool>, w: ::other::T, v: Self) {}",
        &[
            "1:34: this type takes two arguments, both types",
            "1:49: this type takes no arguments",
            "1:81: a writer writes numbers of a primitive type",
            "1:91: a path into another crate can't be exported",
            "1:106: `Self` can't be exported here",
        ],
    ),
    ("pub fn f() {} pub fn f() {}", &["1:43: the name `f` is taken already in this module"]),
    (
        "pub fn f() {} #[diplomat::bridge] mod f {}",
        &["1:60: the name `f` is taken already in this module"],
    ),
    (
        "#[cfg(unix)] #[diplomat::bridge] mod m {} #[cfg(windows)] #[diplomat::bridge] mod m {}",
        &["1:104: the name `m` is taken already in this module"],
    ),
    (
        "struct S; impl S { pub fn f(self: Box<Self>) {} make!(); }",
        &[
            "1:56: a receiver is taken by value or by reference",
            "1:70: what a macro makes can't be exported",
        ],
    ),
    ("struct S; impl<'a> S { pub fn f<'a>() {} }", &["1:54: the lifetime `'a` is declared already"]),
    (
        "impl Other { pub fn f() {} }",
        &["1:27: no type of this module has this name, and an impl block lies in the module of its type"],
    ),
    (
        "trait T: Copy { type X; fn f(x: Self); }",
        &[
            "1:31: a trait of the bridge can be `Send` and `Sync` alone",
            "1:38: a trait of the bridge has methods alone",
            "1:54: `Self` can't be exported here",
        ],
    ),
    ("make! {}", &["1:22: what a macro makes can't be exported"]),
    (
        "#[diplomat::attr(js)] pub fn f(x: [u8; 1]) {}",
        &[
            "1:41: this can't be read: expected `,`",
            "1:56: an array can't be exported; try a slice",
        ],
    ),
    (
        "#[diplomat::opaque] #[diplomat::attr(js)] struct S(u8);",
        &["1:61: this can't be read: expected `,`"],
    ),
    (
        "#[diplomat::attr(some(js), disable)] struct S;",
        &["1:39: this can't be read: a condition is `any`, `all` or `not` of conditions"],
    ),
    ("#[diplomat::abi_rename = \"{0}{0}\"] struct S;", &["1:47: `{0}` stands in a pattern at most once"]),
    (
        "#[diplomat::rust_link(a, Thing)] struct S;",
        &["1:47: this can't be read: no kind of link is named `Thing`"],
    ),
    (
        "#[diplomat::rust_link(a, Mod, big)] struct S;",
        &["1:52: this can't be read: a link is `compact` or `hidden`, or neither word stands"],
    ),
    (
        "#[diplomat::colour] struct S;",
        &["1:22: no attribute of Diplomat that can be exported is named `colour`"],
    ),
    (
        "#[cfg_attr(x, diplomat::opaque)] struct S;",
        &["1:22: an attribute of Diplomat under `cfg_attr` can't be exported; give it a condition of its own"],
    ),
];

#[test]
fn faults() {
    for (text, expected) in FAULTS {
        assert_eq!(faults_of(text), *expected, "of {text}");
    }
}

#[test]
fn faults_of_all_files_are_told() {
    let folder = written(&[
        (
            "lib.rs",
            "mod one;\nmod gone;\n#[diplomat::bridge]\n#[diplomat::out]\nmod ffi {\n    struct S(u8);\n}\n",
        ),
        ("one.rs", "#[diplomat::bridge]\nmod ffi { impl X {} struct T(u8); }\nmod broken;"),
        ("one/broken.rs", "fn"),
    ]);
    let faults = made_by(&[&folder.join("lib.rs").display().to_string()]).unwrap_err();
    let (gone, others): (Vec<&String>, _) = faults.iter().partition(|fault| fault.starts_with("lib.rs:2:5: neither "));
    assert_eq!(gone.len(), 1, "{faults:#?}");
    let expected = [
        "one.rs:2:16: no type of this module has this name, and an impl block lies in the module of its type",
        "one.rs:2:29: the fields of a struct on the bridge have names",
        "broken.rs:1:1: this can't be read: unexpected end of input, expected identifier",
        "lib.rs:4:1: a module isn't marked as a type",
        "lib.rs:6:13: the fields of a struct on the bridge have names",
    ];
    for fault in expected {
        assert!(others.iter().any(|told| *told == fault), "{fault} isn't in {others:#?}");
    }
    assert_eq!(others.len(), expected.len());
}

#[test]
fn columns_count_characters() {
    let faults = export_of("#![diplomat::bridge]\nstruct S {\n    é: u8, y: [u8; 1],\n}").unwrap_err();
    assert_eq!(faults, ["lib.rs:3:15: an array can't be exported; try a slice"]);
}

#[test]
fn a_file_that_declares_itself() {
    let root = written(&[("lib.rs", "#[path = \"lib.rs\"] mod again;")]).join("lib.rs");
    let faults = made_by(&[&root.display().to_string()]).unwrap_err();
    assert_eq!(faults, ["lib.rs:1:24: the file of this module is the file that declares it"]);
    let root = written(&[
        ("lib.rs", "#[path = \"a.rs\"] mod a;"),
        ("a.rs", "#[path = \"lib.rs\"] mod b;"),
    ])
    .join("lib.rs");
    let faults = made_by(&[&root.display().to_string()]).unwrap_err();
    assert_eq!(faults.len(), 1);
    assert!(faults[0].ends_with("modules nest more than 64 deep; does a file declare itself?"), "{faults:?}");
}

#[test]
fn a_file_that_is_not_there_or_no_text() {
    let folder = written(&[]);
    let faults = made_by(&[&folder.join("gone.rs").display().to_string()]).unwrap_err();
    assert!(faults[0].starts_with("gone.rs: it can't be read: "), "{faults:?}");
    std::fs::write(folder.join("odd.rs"), b"//\xff").unwrap();
    let faults = made_by(&[&folder.join("odd.rs").display().to_string()]).unwrap_err();
    assert_eq!(faults, ["odd.rs: its text isn't UTF-8"]);
}
