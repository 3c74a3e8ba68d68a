//! Types, by every spelling that the input has a form for.

use crate::declarations::{Encoding, Lifetime, Path, Reference, Type, Written};
use crate::faults::{all, Source, Told};
use crate::paths::{self, Arguments};
use crate::words::{word, Word};
use proc_macro2::Span;
use syn::spanned::Spanned;

/// Reads types at one place of a module.
#[derive(Debug, Clone, Copy)]
pub struct TypeReader<'r, 'f> {
    /// The file in which the types stand.
    pub source: &'r Source<'f>,
    /// What `Self` is here.
    pub self_type: Option<&'r Path>,
    /// Whether `Ordering` is a name of the module itself.
    pub has_own_ordering: bool,
}

impl TypeReader<'_, '_> {
    /// The type that a function returns; `None` where nothing is written.
    pub fn returned(&self, output: &syn::ReturnType) -> Result<Option<Type>, Told> {
        match output {
            syn::ReturnType::Default => Ok(None),
            syn::ReturnType::Type(_, ty) => self.read(ty).map(Some),
        }
    }

    /// Reads a type.
    pub fn read(&self, ty: &syn::Type) -> Result<Type, Told> {
        match ty {
            syn::Type::Paren(inner) => self.read(&inner.elem),
            syn::Type::Group(inner) => self.read(&inner.elem),
            syn::Type::Tuple(tuple) if tuple.elems.is_empty() => Ok(Type::Unit),
            syn::Type::Reference(reference) => self.reference(reference),
            syn::Type::Path(path) => self.path(path),
            syn::Type::ImplTrait(bounds) => self.impl_trait(bounds),
            _ => Err(self.source.fault(ty.span(), no_form(ty))),
        }
    }

    fn reference(&self, ty: &syn::TypeReference) -> Result<Type, Told> {
        let reference = Reference { lifetime: Lifetime::from(ty.lifetime.as_ref()), mutable: ty.mutability.is_some() };
        match bare(&ty.elem) {
            syn::Type::Slice(slice) => self.slice(&slice.elem, Some(reference), true),
            to => match self.bare_str(to) {
                Some(_) if reference.mutable => Err(self.source.fault(ty.span(), "strings aren't mutable")),
                Some(Word::BareStr { encoding, std }) => {
                    Ok(Type::Str { lifetime: Some(reference.lifetime), encoding, std })
                }
                _ => Ok(Type::Reference { reference, to: Box::new(self.read(to)?) }),
            },
        }
    }

    fn bare_str(&self, ty: &syn::Type) -> Option<Word> {
        match ty {
            syn::Type::Path(path) => {
                word(&paths::names(&path.path)).filter(|word| matches!(word, Word::BareStr { .. }))
            }
            _ => None,
        }
    }

    /// A slice of an element, which is owned where nothing is borrowed.
    fn slice(&self, element: &syn::Type, borrow: Option<Reference>, std: bool) -> Result<Type, Told> {
        let is_shared = borrow.as_ref().map_or(false, |borrow| !borrow.mutable);
        match self.read(element)? {
            Type::Primitive(of) => Ok(Type::Slice { borrow, of, std }),
            Type::Str { lifetime: Some(_), encoding, std: by_std } if is_shared => {
                Ok(Type::Strs { encoding, std: std && by_std })
            }
            Type::Str { lifetime: Some(_), .. } => {
                Err(self.source.fault(element.span(), "a list of strings is neither owned nor mutable"))
            }
            of => Ok(Type::CustomSlice { borrow, of: Box::new(of), std }),
        }
    }

    fn path(&self, ty: &syn::TypePath) -> Result<Type, Told> {
        if let Some(qualified) = &ty.qself {
            return Err(self.source.fault(qualified.ty.span(), "a type of a trait can't be exported"));
        }
        match word(&paths::names(&ty.path)) {
            Some(Word::Ordering) if self.has_own_ordering && ty.path.segments.len() == 1 => self.named(&ty.path),
            Some(word) => self.word(word, &ty.path),
            None => self.named(&ty.path),
        }
    }

    fn named(&self, path: &syn::Path) -> Result<Type, Told> {
        paths::read(path, self.source).map(Type::Named)
    }

    fn word(&self, word: Word, path: &syn::Path) -> Result<Type, Told> {
        let (source, span) = (self.source, path.span());
        let arguments = Arguments::of(path, source)?;
        match word {
            Word::Primitive(name) => arguments.none(source).map(|()| Type::Primitive(name)),
            Word::Ordering => arguments.none(source).map(|()| Type::Ordering),
            Word::Writer(written) => arguments.none(source).map(|()| Type::Write(written)),
            Word::SelfType => arguments.none(source).and_then(|()| self.this(span)),
            Word::Box => self.boxed(arguments.one_type(source)?),
            Word::Option { std } => self.option(arguments.one_type(source)?, std),
            Word::Result { std } => self.result(arguments.two_types(source)?, std),
            Word::BorrowedStr(encoding) => {
                arguments.one_lifetime(source).map(|lifetime| string(Some(lifetime), encoding))
            }
            Word::OwnedStr(encoding) => arguments.none(source).map(|()| string(None, encoding)),
            Word::BorrowedSlice { mutable } => {
                let (lifetime, element) = arguments.lifetime_and_type(source)?;
                self.slice(element, Some(Reference { lifetime, mutable }), false)
            }
            Word::OwnedSlice => self.slice(arguments.one_type(source)?, None, false),
            Word::PrimitiveWriter => self.primitive_writer(arguments.one_type(source)?),
            Word::BareStr { .. } => Err(source.fault(span, "this stands only behind a reference or a box")),
            Word::Forbidden { instead } => {
                Err(source.fault(span, format!("this can't cross the bridge; try `{instead}`")))
            }
        }
    }

    fn this(&self, span: Span) -> Result<Type, Told> {
        let this = self.self_type.cloned().map(Type::SelfType);
        this.ok_or_else(|| self.source.fault(span, "`Self` can't be exported here"))
    }

    fn option(&self, inside: &syn::Type, std: bool) -> Result<Type, Told> {
        Ok(Type::Option { inside: self.inside(inside)?, std })
    }

    fn result(&self, (ok, err): (&syn::Type, &syn::Type), std: bool) -> Result<Type, Told> {
        let (ok, err) = (self.inside(ok), self.inside(err));
        Ok(Type::Result { ok: ok?, err: err?, std })
    }

    fn inside(&self, ty: &syn::Type) -> Result<Box<Type>, Told> {
        self.read(ty).map(Box::new)
    }

    fn boxed(&self, inside: &syn::Type) -> Result<Type, Told> {
        match bare(inside) {
            syn::Type::Slice(slice) => self.slice(&slice.elem, None, true),
            to => match self.bare_str(to) {
                Some(Word::BareStr { encoding, std }) => Ok(Type::Str { lifetime: None, encoding, std }),
                _ => self.inside(to).map(Type::Box),
            },
        }
    }

    fn primitive_writer(&self, of: &syn::Type) -> Result<Type, Told> {
        match self.read(of)? {
            Type::Primitive(name) if !["bool", "char", "byte"].contains(&name) => {
                Ok(Type::Write(Written::Primitive(name)))
            }
            _ => Err(self.source.fault(of.span(), "a writer writes numbers of a primitive type")),
        }
    }

    fn impl_trait(&self, ty: &syn::TypeImplTrait) -> Result<Type, Told> {
        let traits: Vec<_> = ty.bounds.iter().filter_map(paths::bound_of_substance).collect();
        match traits.as_slice() {
            [bound] if bound.lifetimes.is_some() => Err(self
                .source
                .fault(bound.span(), "lifetimes of `for<..>` can't be exported; leave them anonymous")),
            [bound] => self.bound(&bound.path),
            _ => Err(self.source.fault(ty.span(), "a type is `impl` of exactly one trait")),
        }
    }

    fn bound(&self, path: &syn::Path) -> Result<Type, Told> {
        match path.segments.last().map(|last| (&last.ident, &last.arguments)) {
            Some((name, syn::PathArguments::Parenthesized(signature))) => self.function(name, signature),
            _ => paths::read(path, self.source).map(Type::Impl),
        }
    }

    fn function(&self, name: &syn::Ident, signature: &syn::ParenthesizedGenericArguments) -> Result<Type, Told> {
        if name != "Fn" && name != "FnMut" {
            return Err(self.source.fault(name.span(), "a callback is `impl Fn` or `impl FnMut`"));
        }
        let params = all(signature.inputs.iter().map(|input| self.read(input)));
        let ret = self.returned(&signature.output);
        Ok(Type::Function { params: params?, ret: ret?.map(Box::new), mutable: name == "FnMut" })
    }
}

/// A string in Diplomat's spelling.
fn string(lifetime: Option<Lifetime>, encoding: Encoding) -> Type {
    Type::Str { lifetime, encoding, std: false }
}

/// The type within parentheses.
fn bare(ty: &syn::Type) -> &syn::Type {
    match ty {
        syn::Type::Paren(inner) => bare(&inner.elem),
        syn::Type::Group(inner) => bare(&inner.elem),
        _ => ty,
    }
}

fn no_form(ty: &syn::Type) -> &'static str {
    match ty {
        syn::Type::Array(_) => "an array can't be exported; try a slice",
        syn::Type::BareFn(_) => "a function pointer can't be exported; try `impl Fn`",
        syn::Type::Infer(_) => "a type that is left to inference can't be exported",
        syn::Type::Macro(_) => "a type that a macro makes can't be exported",
        syn::Type::Ptr(_) => "a raw pointer can't be exported; try a reference",
        syn::Type::Slice(_) => "a slice stands only behind a reference or a box",
        syn::Type::TraitObject(_) => "a trait object can't be exported; try `impl`",
        syn::Type::Tuple(_) => "a tuple can't be exported; try a struct",
        _ => "this type can't be exported",
    }
}
