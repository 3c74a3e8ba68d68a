//! The bridge of bridge.json as Rust source. `./bridge export` makes the one of the other (docs/EXPORT.md).

#![diplomat::abi_rename = "bridge_{0}"]

#[diplomat::bridge]
mod locale {
    use diplomat_runtime::{DiplomatStr, DiplomatWrite};
    use std::cmp::Ordering;

    #[diplomat::rust_link(icu::Direction, Enum)]
    #[diplomat::attr(auto, abi_compatible)]
    pub enum Direction {
        /// From left to right.
        #[diplomat::rust_link(icu::Direction::LeftToRight, EnumVariant, compact)]
        Ltr,
        Rtl,
    }

    /// A language, and where it is spoken.
    #[diplomat::rust_link(icu::Locale, Struct)]
    #[diplomat::opaque]
    #[diplomat::attr(cpp, namespace = "bridge")]
    #[diplomat::attr(js, custom_extra_code(location = "def_block", file = "locale.mjs"))]
    pub struct Locale(icu::Locale);

    impl Locale {
        /// Reads a name.
        ///
        #[diplomat::docs(js)]
        /// Throws where it is none.
        #[diplomat::rust_link(icu::Locale::parse, FnInStruct, hidden)]
        #[diplomat::attr(auto, constructor)]
        pub fn new(name: &DiplomatStr) -> Option<Box<Locale>> {
            icu::Locale::parse(name).ok().map(|locale| Box::new(Locale(locale)))
        }

        pub fn name<'a>(&'a self) -> &'a DiplomatStr {
            self.0.name().as_bytes()
        }

        pub fn direction(&self) -> Direction {
            match self.0.direction() {
                icu::Direction::LeftToRight => Direction::Ltr,
                icu::Direction::RightToLeft => Direction::Rtl,
            }
        }

        #[diplomat::attr(auto, comparison)]
        pub fn compare(&self, other: &Locale) -> Ordering {
            self.0.cmp(&other.0)
        }

        #[diplomat::attr(auto, stringifier)]
        pub fn write(&self, w: &mut DiplomatWrite) {
            self.0.write_to(w)
        }

        // Not `pub`, and so no part of the bridge.
        fn inner(&self) -> &icu::Locale {
            &self.0
        }
    }
}

#[diplomat::bridge]
mod data {
    use diplomat_runtime::{DiplomatOption, DiplomatStr, DiplomatStrSlice, DiplomatWrite};

    pub enum Width {
        Short,
        #[diplomat::attr(*, default)]
        Long,
    }

    pub enum LoadError {
        Missing = -1,
    }

    #[diplomat::opaque]
    pub struct Provider<'d>(&'d [u8]);

    #[diplomat::opaque]
    pub struct Formatter<'f> {
        provider: &'f Provider<'f>,
        pattern: &'f DiplomatStr,
    }

    #[diplomat::opaque_mut]
    pub struct Parts<'p>(icu_parts::Parts<'p>);

    pub struct Options<'o> {
        pub locale: &'o crate::locale::Locale,
        pub pattern: DiplomatStrSlice<'o>,
        pub fallback: DiplomatOption<Width>,
    }

    #[diplomat::out]
    pub struct Part<'p> {
        pub text: DiplomatStrSlice<'p>,
        /// What the part is of.
        pub kind: u8,
    }

    impl<'d> Provider<'d> {
        #[diplomat::attr(auto, named_constructor)]
        pub fn load(blob: &'d [u8]) -> Box<Provider<'d>> {
            Box::new(Provider(blob))
        }
    }

    impl<'f> Formatter<'f> {
        pub fn try_new(provider: &'f Provider<'f>, options: Options<'f>) -> Result<Box<Formatter<'f>>, LoadError> {
            match provider.0.is_empty() {
                true => Err(LoadError::Missing),
                false => Ok(Box::new(Formatter { provider, pattern: options.pattern.into() })),
            }
        }

        pub fn format(&self, value: i64, w: &mut DiplomatWrite) -> Result<(), LoadError> {
            icu_parts::format(self.provider.0, self.pattern, value, w).map_err(|_| LoadError::Missing)
        }

        #[diplomat::attr(auto, iterable)]
        pub fn parts<'a>(&'a self) -> Box<Parts<'a>>
        where
            'f: 'a,
        {
            Box::new(Parts(icu_parts::Parts::of(self.pattern)))
        }

        #[deprecated(note = "use parts")]
        pub fn each(&self, mut cb: impl FnMut(&DiplomatStr)) {
            icu_parts::Parts::of(self.pattern).for_each(|part| cb(part.text))
        }
    }

    impl<'p> Parts<'p> {
        #[diplomat::attr(auto, iterator)]
        pub fn next(&mut self) -> Option<Part<'p>> {
            self.0.next().map(|part| Part { text: part.text.into(), kind: part.kind })
        }
    }

    pub trait Sink {
        fn accept(&self, n: u32) -> bool;
    }

    #[diplomat::rust_link(icu_parts::parse, Fn)]
    pub fn parse<'x>(text: &'x DiplomatStr, sink: impl Sink) -> Part<'x> {
        sink.accept(text.len() as u32);
        Part { text: text.into(), kind: 0 }
    }
}
