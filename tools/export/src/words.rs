//! The types that Rust and Diplomat's runtime give, by the names under which a bridge writes them.

use crate::declarations::{Encoding, Written};

/// A type that isn't declared in the bridge.
#[derive(Debug, Clone, Copy, PartialEq, Eq)]
pub enum Word {
    Primitive(&'static str),
    SelfType,
    Ordering,
    Box,
    Option {
        std: bool,
    },
    Result {
        std: bool,
    },
    /// A string with a lifetime, as `DiplomatStrSlice<'a>`.
    BorrowedStr(Encoding),
    /// A string without one, as `DiplomatOwnedStrSlice`.
    OwnedStr(Encoding),
    /// A slice with a lifetime, as `DiplomatSlice<'a, T>`.
    BorrowedSlice {
        mutable: bool,
    },
    OwnedSlice,
    Writer(Written),
    /// `DiplomatWriteGeneric<T>`.
    PrimitiveWriter,
    /// What stands behind a reference or a box alone, as `str`.
    BareStr {
        encoding: Encoding,
        std: bool,
    },
    /// What has another name on a bridge.
    Forbidden {
        instead: &'static str,
    },
}

/// Primitive types that have the same name in Rust and in the input.
const PRIMITIVES: [&str; 15] = [
    "i8", "u8", "i16", "u16", "i32", "u32", "i64", "u64", "isize", "usize", "i128", "u128", "f32", "f64", "bool",
];

/// Modules of std in which types of std's prelude lie.
const STD_MODULES: [(&str, &str); 4] = [
    ("boxed", "Box"),
    ("option", "Option"),
    ("result", "Result"),
    ("cmp", "Ordering"),
];

/// What a path without generics means, where it is no path to a declaration of the bridge.
pub fn word(segments: &[String]) -> Option<Word> {
    let segments: Vec<&str> = segments.iter().map(String::as_str).collect();
    match segments.as_slice() {
        [name] => prelude(name).or_else(|| runtime(name)),
        ["diplomat_runtime", name] => runtime(name),
        ["std" | "core" | "alloc", module, name] if STD_MODULES.contains(&(module, name)) => prelude(name),
        ["cmp", "Ordering"] => Some(Word::Ordering),
        ["std" | "core", "primitive", name] => primitive(name),
        _ => None,
    }
}

/// The primitive type of that name in Rust.
pub fn primitive(name: &str) -> Option<Word> {
    PRIMITIVES.iter().find(|known| **known == name).copied().map(Word::Primitive)
}

fn prelude(name: &str) -> Option<Word> {
    Some(match name {
        "Self" => Word::SelfType,
        "Ordering" => Word::Ordering,
        "Box" => Word::Box,
        "Option" => Word::Option { std: true },
        "Result" => Word::Result { std: true },
        "str" => Word::BareStr { encoding: Encoding::Utf8, std: true },
        "char" => Word::Forbidden { instead: "DiplomatChar" },
        "String" => Word::Forbidden { instead: "Box<str>` or `&mut DiplomatWrite" },
        _ => return primitive(name),
    })
}

fn runtime(name: &str) -> Option<Word> {
    use Encoding::{UnvalidatedUtf16, UnvalidatedUtf8, Utf8};
    Some(match name {
        "DiplomatByte" => Word::Primitive("byte"),
        "DiplomatChar" => Word::Primitive("char"),
        "DiplomatOption" => Word::Option { std: false },
        "DiplomatResult" => Word::Result { std: false },
        "DiplomatStr" => Word::BareStr { encoding: UnvalidatedUtf8, std: false },
        "DiplomatStr16" => Word::BareStr { encoding: UnvalidatedUtf16, std: false },
        "DiplomatStrSlice" => Word::BorrowedStr(UnvalidatedUtf8),
        "DiplomatStr16Slice" => Word::BorrowedStr(UnvalidatedUtf16),
        "DiplomatUtf8StrSlice" | "DiplomatUTF8StrSlice" => Word::BorrowedStr(Utf8),
        "DiplomatOwnedStrSlice" => Word::OwnedStr(UnvalidatedUtf8),
        "DiplomatOwnedStr16Slice" => Word::OwnedStr(UnvalidatedUtf16),
        "DiplomatOwnedUtf8StrSlice" | "DiplomatOwnedUTF8StrSlice" => Word::OwnedStr(Utf8),
        "DiplomatSlice" => Word::BorrowedSlice { mutable: false },
        "DiplomatSliceMut" => Word::BorrowedSlice { mutable: true },
        "DiplomatOwnedSlice" => Word::OwnedSlice,
        "DiplomatWrite" => Word::Writer(Written::Str),
        "DiplomatWrite16" => Word::Writer(Written::Str16),
        "DiplomatWriteGeneric" => Word::PrimitiveWriter,
        _ => return None,
    })
}
