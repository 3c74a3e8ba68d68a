//! Paths, and what stands between their angle brackets.

use crate::declarations::{Lifetime, Path};
use crate::faults::{all, Source, Told};
use proc_macro2::Span;
use syn::spanned::Spanned;
use syn::{GenericArgument, PathArguments, TraitBound, Type, TypeParamBound};

/// Traits that say nothing of how a value crosses the bridge.
const MARKERS: [&str; 5] = ["Send", "Sync", "Unpin", "UnwindSafe", "RefUnwindSafe"];

/// The names of a path.
pub fn names(path: &syn::Path) -> Vec<String> {
    path.segments.iter().map(|segment| segment.ident.to_string()).collect()
}

/// Reads a path to a declaration of the bridge.
pub fn read(path: &syn::Path, source: &Source) -> Result<Path, Told> {
    if path.leading_colon.is_some() {
        return Err(source.fault(path.span(), "a path into another crate can't be exported"));
    }
    let arguments = Arguments::of(path, source)?;
    if let Some(ty) = arguments.types.first() {
        return Err(source.fault(ty.span(), "a type of the bridge has no generic types"));
    }
    Ok(Path { segments: names(path), lifetimes: arguments.lifetimes })
}

/// The trait of a bound, but for lifetimes and traits that say nothing of how a value crosses the bridge.
pub fn bound_of_substance(bound: &TypeParamBound) -> Option<&TraitBound> {
    match bound {
        TypeParamBound::Trait(bound) if !MARKERS.iter().any(|marker| ends_in(bound, marker)) => Some(bound),
        _ => None,
    }
}

/// Whether the last name of a trait's path is this one.
pub fn ends_in(bound: &TraitBound, name: &str) -> bool {
    bound.path.segments.last().map_or(false, |last| last.ident == name)
}

/// The arguments between the angle brackets of a path.
pub struct Arguments<'p> {
    pub lifetimes: Vec<Lifetime>,
    pub types: Vec<&'p Type>,
    span: Span,
}

impl<'p> Arguments<'p> {
    /// The arguments of the last segment; no other has any.
    pub fn of(path: &'p syn::Path, source: &Source) -> Result<Self, Told> {
        let mut arguments = Arguments { lifetimes: Vec::new(), types: Vec::new(), span: path.span() };
        let last = path.segments.len() - 1;
        all(path.segments.iter().enumerate().map(|(place, segment)| match &segment.arguments {
            PathArguments::None => Ok(()),
            PathArguments::AngleBracketed(list) if place == last => {
                all(list.args.iter().map(|argument| arguments.add(argument, source))).map(|_| ())
            }
            other => Err(source.fault(other.span(), "only the last name of a path has arguments, in angle brackets")),
        }))?;
        Ok(arguments)
    }

    fn add(&mut self, argument: &'p GenericArgument, source: &Source) -> Result<(), Told> {
        match argument {
            GenericArgument::Lifetime(lifetime) => self.lifetimes.push(Lifetime::from(lifetime)),
            GenericArgument::Type(ty) => self.types.push(ty),
            _ => return Err(source.fault(argument.span(), "only lifetimes and types can be arguments")),
        }
        Ok(())
    }

    fn wrong<T>(&self, expected: &str, source: &Source) -> Result<T, Told> {
        Err(source.fault(self.span, format!("this type takes {expected}")))
    }

    /// No arguments.
    pub fn none(&self, source: &Source) -> Result<(), Told> {
        match (self.lifetimes.as_slice(), self.types.as_slice()) {
            ([], []) => Ok(()),
            _ => self.wrong("no arguments", source),
        }
    }

    /// One type.
    pub fn one_type(&self, source: &Source) -> Result<&'p Type, Told> {
        match (self.lifetimes.as_slice(), self.types.as_slice()) {
            ([], [ty]) => Ok(ty),
            _ => self.wrong("one argument, a type", source),
        }
    }

    /// Two types.
    pub fn two_types(&self, source: &Source) -> Result<(&'p Type, &'p Type), Told> {
        match (self.lifetimes.as_slice(), self.types.as_slice()) {
            ([], [first, second]) => Ok((first, second)),
            _ => self.wrong("two arguments, both types", source),
        }
    }

    /// One lifetime, which is anonymous where none is written.
    pub fn one_lifetime(&self, source: &Source) -> Result<Lifetime, Told> {
        match (self.lifetimes.as_slice(), self.types.as_slice()) {
            ([], []) => Ok(Lifetime::Anonymous),
            ([lifetime], []) => Ok(lifetime.clone()),
            _ => self.wrong("one argument, a lifetime", source),
        }
    }

    /// One lifetime, which is anonymous where none is written, and one type.
    pub fn lifetime_and_type(&self, source: &Source) -> Result<(Lifetime, &'p Type), Told> {
        match (self.lifetimes.as_slice(), self.types.as_slice()) {
            ([], [ty]) => Ok((Lifetime::Anonymous, ty)),
            ([lifetime], [ty]) => Ok((lifetime.clone(), ty)),
            _ => self.wrong("two arguments, a lifetime and a type", source),
        }
    }
}
