//! Queries over an index of words: docs/PAGE.md reads the page of this bridge.

#[diplomat::bridge]
mod search {
    #[diplomat::opaque]
    pub struct Index;

    #[diplomat::opaque]
    pub struct Hits<'h>(&'h Index);

    pub struct Span<'s> {
        pub index: &'s Index,
        pub first: u32,
    }

    pub struct Query<'i, 't> {
        pub span: Span<'i>,
        pub words: DiplomatStrSlice<'t>,
    }

    impl<'h> Hits<'h> {
        pub fn find<'q: 'h>(query: Query<'h, 'q>, hint: DiplomatOption<Span<'q>>, locale: &DiplomatStr) -> Box<Hits<'h>> {
            unimplemented!()
        }

        pub fn narrow<'a>(&'a self, words: &'a DiplomatStr) -> &'a Hits<'h> {
            unimplemented!()
        }
    }

    pub fn trim(text: &DiplomatStr) -> &DiplomatStr {
        unimplemented!()
    }
}
