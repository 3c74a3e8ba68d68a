//! The items of a bridge.

use crate::attrs::{has_role, Attributes, Role};
use crate::declarations::*;
use crate::faults::{all, Source, Told};
use crate::lifetimes::LifetimeList;
use crate::methods::{self, is_public};
use crate::names::destructor_symbol;
use crate::paths;
use crate::types::TypeReader;
use std::collections::BTreeSet;
use syn::spanned::Spanned;
use syn::{Fields, ItemEnum, ItemStruct, ItemTrait, TypeParamBound};

/// A module that is a bridge, as its items see it.
#[derive(Debug)]
pub struct Bridge<'b, 'f> {
    pub source: &'b Source<'f>,
    /// What its items take over from it.
    pub parent: Attrs,
    /// The names of the types that it declares.
    pub types: BTreeSet<String>,
    /// Whether `Ordering` is a name of the module itself.
    pub has_own_ordering: bool,
}

impl<'b, 'f> Bridge<'b, 'f> {
    /// A reader of types at a place where `Self` is this.
    pub fn types_of<'r>(&'r self, self_type: Option<&'r Path>) -> TypeReader<'r, 'f> {
        TypeReader { source: self.source, self_type, has_own_ordering: self.has_own_ordering }
    }

    /// Reads an item, where it is one that crosses the bridge.
    pub fn item(&self, item: &syn::Item) -> Option<Result<Item, Told>> {
        match item {
            syn::Item::Struct(of) => self.declared(&of.attrs, &of.ident, |read| self.structure(of, read)),
            syn::Item::Enum(of) => self.declared(&of.attrs, &of.ident, |read| self.enumeration(of, read)),
            syn::Item::Trait(of) => self.declared(&of.attrs, &of.ident, |read| self.interface(of, read)),
            syn::Item::Fn(of) if is_public(&of.vis) => self.declared(&of.attrs, &of.sig.ident, |read| {
                read.role.map_or(Ok(()), |_| Err(self.misplaced(of.sig.ident.span())))?;
                methods::function(of, &read.attrs, self)
            }),
            syn::Item::Macro(made) if !made.mac.path.is_ident("macro_rules") => {
                Some(Err(self.source.fault(made.span(), "what a macro makes can't be exported")))
            }
            _ => None,
        }
    }

    fn declared(
        &self,
        list: &[syn::Attribute],
        name: &syn::Ident,
        read: impl FnOnce(&Read) -> Result<ItemKind, Told>,
    ) -> Option<Result<Item, Told>> {
        let attributes = match Attributes::read(list, self.source) {
            Ok(attributes) => attributes,
            Err(told) => {
                // The faults of the rest are told too, where it is clear how it would be read.
                if !has_role(list) {
                    let _ = read(&Read { role: None, attrs: Attrs::default(), name: name.to_string() });
                }
                return Some(Err(told));
            }
        };
        if attributes.is_test {
            return None;
        }
        let role = attributes.role(self.source);
        let docs = attributes.docs;
        let attrs = attributes.attrs.under(&self.parent);
        Some(role.and_then(|role| {
            let about = Read { role, attrs, name: name.to_string() };
            let kind = read(&about)?;
            Ok(Item { name: about.name, kind, docs, attrs: about.attrs })
        }))
    }

    fn misplaced(&self, span: proc_macro2::Span) -> Told {
        self.source.fault(span, "what this is marked as has no meaning here")
    }

    fn structure(&self, item: &ItemStruct, read: &Read) -> Result<ItemKind, Told> {
        let output_only = match read.role {
            Some(Role::Opaque | Role::OpaqueMut) => return self.opaque(&item.generics, read),
            Some(Role::Out) => true,
            Some(Role::Bridge) => return Err(self.misplaced(item.ident.span())),
            None => false,
        };
        let lifetimes = LifetimeList::of(&item.generics, self.source);
        let written = lifetimes.as_ref().map_or_else(|_| Vec::new(), LifetimeList::as_written);
        let this = Path { segments: vec![read.name.clone()], lifetimes: written };
        let fields = match &item.fields {
            Fields::Unit => Ok(Vec::new()),
            Fields::Unnamed(fields) if fields.unnamed.is_empty() => Ok(Vec::new()),
            Fields::Unnamed(fields) => {
                Err(self.source.fault(fields.span(), "the fields of a struct on the bridge have names"))
            }
            Fields::Named(fields) => all(fields.named.iter().map(|field| self.field(field, &this))),
        };
        let (mut lifetimes, fields) = (lifetimes?, fields?);
        fields.iter().for_each(|field| lifetimes.imply(&field.ty));
        Ok(ItemKind::Struct { output_only, lifetimes: lifetimes.into_nodes(), fields, methods: Vec::new() })
    }

    fn field(&self, field: &syn::Field, this: &Path) -> Result<Field, Told> {
        let attributes = Attributes::read(&field.attrs, self.source).and_then(|read| read.without_role(self.source));
        let ty = self.types_of(Some(this)).read(&field.ty);
        let (attrs, docs) = attributes?;
        let name = field.ident.as_ref().map(ToString::to_string).unwrap_or_default();
        Ok(Field { name, ty: ty?, docs, attrs })
    }

    fn opaque(&self, generics: &syn::Generics, read: &Read) -> Result<ItemKind, Told> {
        Ok(ItemKind::Opaque {
            lifetimes: LifetimeList::of(generics, self.source)?.into_nodes(),
            mutable: read.role == Some(Role::OpaqueMut),
            methods: Vec::new(),
            destructor: destructor_symbol(read.attrs.abi_rename.as_deref(), &read.name),
        })
    }

    fn enumeration(&self, item: &ItemEnum, read: &Read) -> Result<ItemKind, Told> {
        match read.role {
            Some(Role::Opaque | Role::OpaqueMut) => return self.opaque(&item.generics, read),
            Some(Role::Out | Role::Bridge) => return Err(self.misplaced(item.ident.span())),
            None => {}
        }
        if let Some(param) = item.generics.params.first() {
            return Err(self.source.fault(param.span(), "an enum on the bridge has no generics"));
        }
        let mut next = Next::Known(0);
        let variants = all(item.variants.iter().map(|variant| self.variant(variant, &mut next, read)))?;
        Ok(ItemKind::Enum { variants, methods: Vec::new() })
    }

    /// Reads a variant. `next` is the discriminant that it has where none is written.
    fn variant(&self, variant: &syn::Variant, next: &mut Next, read: &Read) -> Result<Variant, Told> {
        let attributes = Attributes::read(&variant.attrs, self.source).and_then(|it| it.without_role(self.source));
        let fields = match &variant.fields {
            Fields::Unit => Ok(()),
            fields => Err(self.source.fault(fields.span(), "a variant on the bridge has no fields")),
        };
        let discriminant = self.discriminant(variant, next);
        *next = match discriminant {
            Ok(number) => number.checked_add(1).map_or(Next::OutOfRange, Next::Known),
            Err(told) => Next::Unknown(told),
        };
        let (attrs, docs) = attributes?;
        fields?;
        let discriminant = discriminant?;
        let inherited = Attrs { features: read.attrs.features.clone(), ..Attrs::default() };
        Ok(Variant { name: variant.ident.to_string(), discriminant, docs, attrs: attrs.under(&inherited) })
    }

    fn discriminant(&self, variant: &syn::Variant, next: &Next) -> Result<i64, Told> {
        let fault = |span| self.source.fault(span, "a discriminant is a whole number of 64 bits, written as such");
        match (&variant.discriminant, next) {
            (Some((_, value)), _) => whole_number(value, false).ok_or_else(|| fault(value.span())),
            (None, Next::Known(number)) => Ok(*number),
            (None, Next::OutOfRange) => Err(fault(variant.ident.span())),
            (None, Next::Unknown(told)) => Err(*told),
        }
    }

    fn interface(&self, item: &ItemTrait, read: &Read) -> Result<ItemKind, Told> {
        if read.role.is_some() {
            return Err(self.misplaced(item.ident.span()));
        }
        let bounds = all(item.supertraits.iter().map(|bound| match paths::bound_of_substance(bound) {
            Some(other) => Err(self.source.fault(other.span(), "a trait of the bridge can be `Send` and `Sync` alone")),
            None => Ok(()),
        }));
        let declared = LifetimeList::of(&item.generics, self.source);
        let lifetimes = declared.clone().unwrap_or_default();
        let this = Path { segments: vec![read.name.clone()], lifetimes: Vec::new() };
        let parent = read.attrs.handed_down();
        let methods = all(item
            .items
            .iter()
            .filter_map(|inner| methods::trait_method(inner, &lifetimes, &this, &parent, self)));
        bounds.and(declared)?;
        let has = |name| item.supertraits.iter().any(|bound| is_trait(bound, name));
        let (is_send, is_sync) = (has("Send"), has("Sync"));
        Ok(ItemKind::Trait { lifetimes: lifetimes.into_nodes(), methods: methods?, is_send, is_sync })
    }
}

/// The discriminant that a variant has where none is written.
#[derive(Debug)]
enum Next {
    Known(i64),
    OutOfRange,
    /// That of an earlier variant has a fault.
    Unknown(Told),
}

/// What is known of an item before its kind is read.
#[derive(Debug)]
struct Read {
    role: Option<Role>,
    attrs: Attrs,
    name: String,
}

fn is_trait(bound: &TypeParamBound, name: &str) -> bool {
    matches!(bound, TypeParamBound::Trait(bound) if paths::ends_in(bound, name))
}

/// A whole number, with any signs and parentheses before it.
fn whole_number(value: &syn::Expr, negative: bool) -> Option<i64> {
    match value {
        syn::Expr::Paren(inner) => whole_number(&inner.expr, negative),
        syn::Expr::Group(inner) => whole_number(&inner.expr, negative),
        syn::Expr::Unary(syn::ExprUnary { op: syn::UnOp::Neg(_), expr, .. }) => whole_number(expr, !negative),
        syn::Expr::Lit(syn::ExprLit { lit: syn::Lit::Int(digits), .. }) => {
            let sign = if negative { "-" } else { "" };
            format!("{sign}{}", digits.base10_digits()).parse().ok()
        }
        _ => None,
    }
}
