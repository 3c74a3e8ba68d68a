//! Attributes of declarations, and what is handed down to the declarations inside.

use crate::declarations::{Attrs, Docs};
use crate::docs::DocsReader;
use crate::faults::{Source, Told};
use crate::marks::{disabled_unless, Text};
use crate::names::NAME_PLACE;
use crate::paths;
use proc_macro2::{Span, TokenStream, TokenTree};
use syn::spanned::Spanned;
use syn::{Attribute, Lit, Meta, NestedMeta};

/// What a module or a type is to Diplomat.
#[derive(Debug, Clone, Copy, PartialEq, Eq)]
pub enum Role {
    Bridge,
    Opaque,
    OpaqueMut,
    Out,
}

/// All that the attributes of one declaration say.
#[derive(Debug, Default)]
pub struct Attributes {
    pub attrs: Attrs,
    pub docs: Docs,
    /// Whether the declaration is there in tests alone.
    pub is_test: bool,
    roles: Vec<(Role, Span)>,
}

impl Attributes {
    /// Reads the attributes of a declaration, and tells the faults of all of them.
    pub fn read(list: &[Attribute], source: &Source) -> Result<Self, Told> {
        let mut reader = Reader { source, read: Attributes::default(), docs: DocsReader::default() };
        let mut outcome = Ok(());
        for attribute in list {
            outcome = reader.attribute(attribute).and(outcome);
        }
        outcome?;
        Ok(Attributes { docs: reader.docs.finish(), ..reader.read })
    }

    /// The role that is given; it is at most one.
    pub fn role(&self, source: &Source) -> Result<Option<Role>, Told> {
        match self.roles.as_slice() {
            [] => Ok(None),
            [(role, _)] => Ok(Some(*role)),
            [_, (_, span), ..] => Err(source.fault(*span, "a declaration is marked in this way at most once")),
        }
    }

    /// The attributes of a module, which can be marked as a bridge and as nothing else.
    pub fn of_module(self, source: &Source) -> Result<Attrs, Told> {
        match self.roles.iter().find(|(role, _)| *role != Role::Bridge) {
            None => Ok(self.attrs),
            Some((_, span)) => Err(source.fault(*span, "a module isn't marked as a type")),
        }
    }

    /// The attributes and the documentation of something that has no role.
    pub fn without_role(self, source: &Source) -> Result<(Attrs, Docs), Told> {
        match self.roles.first() {
            None => Ok((self.attrs, self.docs)),
            Some((_, span)) => Err(source.fault(*span, "this attribute has no meaning here")),
        }
    }
}

/// Whether a module is marked as a bridge, whatever else its attributes say.
pub fn is_bridge(list: &[Attribute]) -> bool {
    list.iter().any(|attribute| role_of(attribute) == Some(Role::Bridge))
}

/// Whether something is marked as anything, whatever else its attributes say.
pub fn has_role(list: &[Attribute]) -> bool {
    list.iter().any(|attribute| role_of(attribute).is_some())
}

fn role_of(attribute: &Attribute) -> Option<Role> {
    match paths::names(&attribute.path).as_slice() {
        [tool, name] if tool == "diplomat" => role_named(name),
        _ => None,
    }
}

fn role_named(name: &str) -> Option<Role> {
    match name {
        "bridge" => Some(Role::Bridge),
        "opaque" => Some(Role::Opaque),
        "opaque_mut" => Some(Role::OpaqueMut),
        "out" => Some(Role::Out),
        _ => None,
    }
}

struct Reader<'s, 'f> {
    source: &'s Source<'f>,
    read: Attributes,
    docs: DocsReader,
}

impl Reader<'_, '_> {
    fn attribute(&mut self, attribute: &Attribute) -> Result<(), Told> {
        let names = paths::names(&attribute.path);
        let names: Vec<&str> = names.iter().map(String::as_str).collect();
        match names.as_slice() {
            ["doc"] => self.docs.line(attribute),
            ["cfg"] => self.cfg(attribute)?,
            ["cfg_attr"] if mentions_diplomat(attribute.tokens.clone()) => {
                let text =
                    "an attribute of Diplomat under `cfg_attr` can't be exported; give it a condition of its own";
                return Err(self.source.fault(attribute.span(), text));
            }
            ["deprecated"] => self.read.attrs.deprecated = Some(self.deprecated(attribute)?),
            ["diplomat", name] => self.diplomat(name, attribute)?,
            _ => {}
        }
        Ok(())
    }

    fn diplomat(&mut self, name: &str, attribute: &Attribute) -> Result<(), Told> {
        let syntax = |error| self.source.syntax(error);
        if let Some(role) = role_named(name) {
            self.read.roles.push((role, attribute.span()));
            return Ok(());
        }
        match name {
            "attr" => self.read.attrs.marks.push(attribute.parse_args().map_err(syntax)?),
            "cfg" => self.read.attrs.marks.push(disabled_unless(attribute.parse_args().map_err(syntax)?)),
            "abi_rename" => self.read.attrs.abi_rename = Some(self.pattern(attribute)?),
            "rust_link" => self.docs.link(attribute, self.source)?,
            "docs" => self.docs.condition(attribute, self.source)?,
            // These say nothing of declarations: they are for demonstrations, and for code that the macro makes.
            "demo" | "enum_convert" | "transparent_convert" | "config" => {}
            _ => {
                let text = format!("no attribute of Diplomat that can be exported is named `{name}`");
                return Err(self.source.fault(attribute.span(), text));
            }
        }
        Ok(())
    }

    fn pattern(&self, attribute: &Attribute) -> Result<String, Told> {
        let Text(text) = syn::parse2(attribute.tokens.clone()).map_err(|error| self.source.syntax(error))?;
        let pattern = text.value();
        if pattern.matches(NAME_PLACE).count() > 1 {
            return Err(self.source.fault(text.span(), "`{0}` stands in a pattern at most once"));
        }
        Ok(pattern)
    }

    fn cfg(&mut self, attribute: &Attribute) -> Result<(), Told> {
        let meta = attribute.parse_meta().map_err(|error| self.source.syntax(error))?;
        if let Meta::List(list) = meta {
            for part in &list.nested {
                features(part, &mut self.read.attrs.features);
                self.read.is_test |= needs_test(part);
            }
        }
        Ok(())
    }

    fn deprecated(&self, attribute: &Attribute) -> Result<String, Told> {
        let meta = attribute.parse_meta().map_err(|error| self.source.syntax(error))?;
        let note = match meta {
            Meta::Path(_) => None,
            Meta::NameValue(note) => Some(note.lit),
            Meta::List(list) => list.nested.into_iter().find_map(|part| match part {
                NestedMeta::Meta(Meta::NameValue(entry)) if entry.path.is_ident("note") => Some(entry.lit),
                _ => None,
            }),
        };
        Ok(match note {
            Some(Lit::Str(text)) => text.value(),
            _ => String::new(),
        })
    }
}

fn mentions_diplomat(tokens: TokenStream) -> bool {
    tokens.into_iter().any(|token| match token {
        TokenTree::Ident(name) => name == "diplomat",
        TokenTree::Group(group) => mentions_diplomat(group.stream()),
        _ => false,
    })
}

/// Adds the features that a `cfg` asks for. What stands under `not` isn't asked for.
fn features(part: &NestedMeta, found: &mut Vec<String>) {
    match part {
        NestedMeta::Meta(Meta::NameValue(entry)) if entry.path.is_ident("feature") => {
            if let Lit::Str(name) = &entry.lit {
                add_new(found, name.value());
            }
        }
        NestedMeta::Meta(Meta::List(list)) if !list.path.is_ident("not") => {
            list.nested.iter().for_each(|inner| features(inner, found));
        }
        _ => {}
    }
}

fn needs_test(part: &NestedMeta) -> bool {
    match part {
        NestedMeta::Meta(Meta::Path(path)) => path.is_ident("test"),
        NestedMeta::Meta(Meta::List(list)) => list.path.is_ident("all") && list.nested.iter().any(needs_test),
        _ => false,
    }
}

fn add_new<T: PartialEq>(list: &mut Vec<T>, entry: T) {
    if !list.contains(&entry) {
        list.push(entry);
    }
}

impl Attrs {
    /// What a declaration inside takes over: the features, and a pattern of symbols that has a place for the name.
    pub fn handed_down(&self) -> Attrs {
        let pattern = self.abi_rename.clone().filter(|pattern| pattern.contains(NAME_PLACE));
        Attrs { features: self.features.clone(), abi_rename: pattern, ..Attrs::default() }
    }

    /// What the methods of an impl block take over: its marks too, since it is no declaration itself.
    pub fn handed_to_methods(&self) -> Attrs {
        Attrs { marks: self.marks.clone(), ..self.handed_down() }
    }

    /// These attributes together with what they take over.
    pub fn under(self, parent: &Attrs) -> Attrs {
        let mut features = parent.features.clone();
        self.features.into_iter().for_each(|feature| add_new(&mut features, feature));
        let marks = parent.marks.iter().cloned().chain(self.marks).collect();
        let abi_rename = self.abi_rename.or_else(|| parent.abi_rename.clone());
        Attrs { features, marks, abi_rename, deprecated: self.deprecated }
    }
}
