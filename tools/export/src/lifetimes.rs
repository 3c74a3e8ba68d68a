//! Lists of lifetimes, and the bounds between them: those that are written, and those that references imply.

use crate::declarations::{Lifetime, LifetimeNode, Path, Receiver, Reference, Type};
use crate::faults::{all, Source, Told};
use syn::spanned::Spanned;
use syn::{GenericParam, Generics, WherePredicate};

impl From<&syn::Lifetime> for Lifetime {
    fn from(lifetime: &syn::Lifetime) -> Self {
        match lifetime.ident.to_string().as_str() {
            "static" => Lifetime::Static,
            "_" => Lifetime::Anonymous,
            name => Lifetime::Named(name.to_owned()),
        }
    }
}

impl From<Option<&syn::Lifetime>> for Lifetime {
    fn from(lifetime: Option<&syn::Lifetime>) -> Self {
        lifetime.map_or(Lifetime::Anonymous, Lifetime::from)
    }
}

/// Builds one list of lifetimes.
#[derive(Debug, Clone, Default)]
pub struct LifetimeList {
    nodes: Vec<LifetimeNode>,
}

impl LifetimeList {
    /// The lifetimes of a list of generics, with their bounds.
    pub fn of(generics: &Generics, source: &Source) -> Result<Self, Told> {
        let mut list = LifetimeList::default();
        list.declare(generics, source)?;
        Ok(list)
    }

    /// Adds the lifetimes of a list of generics, with their bounds, also those in its `where`.
    pub fn declare(&mut self, generics: &Generics, source: &Source) -> Result<(), Told> {
        let declared = all(generics.params.iter().map(|param| self.declare_one(param, source)));
        let bounds = all(generics.params.iter().map(|param| match param {
            GenericParam::Lifetime(declared) => self.bounds(&declared.lifetime, declared.bounds.iter(), source),
            _ => Ok(()),
        }));
        let predicates = generics.where_clause.iter().flat_map(|clause| &clause.predicates);
        let predicates = all(predicates.map(|predicate| match predicate {
            WherePredicate::Lifetime(bound) => self.bounds(&bound.lifetime, bound.bounds.iter(), source),
            _ => Err(source.fault(predicate.span(), "only lifetimes can have bounds")),
        }));
        declared.and(bounds).and(predicates).map(|_| ())
    }

    fn declare_one(&mut self, param: &GenericParam, source: &Source) -> Result<(), Told> {
        let declared = match param {
            GenericParam::Lifetime(declared) => declared,
            _ => return Err(source.fault(param.span(), "only lifetimes can be generic")),
        };
        let name = declared.lifetime.ident.to_string();
        if self.place(&name).is_some() {
            return Err(source.fault(declared.span(), format!("the lifetime `'{name}` is declared already")));
        }
        self.nodes.push(LifetimeNode { name, longer: Vec::new(), shorter: Vec::new() });
        Ok(())
    }

    fn bounds<'b>(
        &mut self,
        long: &syn::Lifetime,
        bounds: impl Iterator<Item = &'b syn::Lifetime>,
        source: &Source,
    ) -> Result<(), Told> {
        all(bounds.map(|short| {
            let (long, short) = (self.declared(long, source), self.declared(short, source));
            self.bind(long?, short?);
            Ok(())
        }))?;
        Ok(())
    }

    fn declared(&self, lifetime: &syn::Lifetime, source: &Source) -> Result<usize, Told> {
        self.place(&lifetime.ident.to_string()).ok_or_else(|| {
            let text = match Lifetime::from(lifetime) {
                Lifetime::Static => {
                    "a bound to `'static` can't be exported; write `'static` in place of the lifetime".into()
                }
                _ => format!("the lifetime `{lifetime}` isn't declared"),
            };
            source.fault(lifetime.span(), text)
        })
    }

    fn place(&self, name: &str) -> Option<usize> {
        self.nodes.iter().position(|node| node.name == name)
    }

    /// Has one lifetime outlive another. A bound that stands already isn't added.
    fn bind(&mut self, long: usize, short: usize) {
        if !self.nodes[short].longer.contains(&long) {
            self.nodes[short].longer.push(long);
            self.nodes[long].shorter.push(short);
        }
    }

    /// Whether one lifetime outlives another by the bounds that stand.
    fn outlives(&self, long: usize, short: usize) -> bool {
        let mut reached = vec![short];
        let mut next = 0;
        while let Some(place) = reached.get(next).copied() {
            let longer = self.nodes[place].longer.iter().copied().filter(|place| !reached.contains(place));
            let new: Vec<usize> = longer.collect();
            reached.extend(new);
            next += 1;
        }
        reached.contains(&long)
    }

    /// Adds the bounds that the references in a type imply: what `&'a T` leads to outlives `'a`. One that follows from
    /// bounds that stand already isn't added.
    pub fn imply(&mut self, ty: &Type) {
        visit(ty, None, false, &mut |long, short| {
            if let (Some(long), Some(short)) = (self.place(long), short.and_then(|short| self.place(short))) {
                if !self.outlives(long, short) {
                    self.bind(long, short);
                }
            }
        });
    }

    /// Adds the bounds that the reference of a receiver implies.
    pub fn imply_of_receiver(&mut self, receiver: &Receiver) {
        if let Some(reference) = &receiver.reference {
            let to = Box::new(Type::SelfType(receiver.path.clone()));
            self.imply(&Type::Reference { reference: reference.clone(), to });
        }
    }

    /// The lifetimes in order.
    pub fn into_nodes(self) -> Vec<LifetimeNode> {
        self.nodes
    }

    /// How many lifetimes there are.
    pub fn count(&self) -> usize {
        self.nodes.len()
    }

    /// The lifetimes as they are written in a path.
    pub fn as_written(&self) -> Vec<Lifetime> {
        self.nodes.iter().map(|node| Lifetime::Named(node.name.clone())).collect()
    }
}

/// The list without its first lifetimes, where neither one of the names nor a bound of the others leads to them.
pub fn without_unused(list: Vec<LifetimeNode>, first: usize, names: &[String]) -> Vec<LifetimeNode> {
    let (outer, own) = list.split_at(first);
    let is_named = outer.iter().any(|node| names.contains(&node.name));
    let is_bound = own.iter().any(|node| node.longer.iter().chain(&node.shorter).any(|place| *place < first));
    if is_named || is_bound {
        return list;
    }
    let moved = |places: &[usize]| places.iter().map(|place| place - first).collect();
    own.iter()
        .map(|node| LifetimeNode {
            name: node.name.clone(),
            longer: moved(&node.longer),
            shorter: moved(&node.shorter),
        })
        .collect()
}

/// The names of lifetimes that a type has, also in callbacks and traits.
pub fn names_in(ty: &Type, names: &mut Vec<String>) {
    visit(ty, None, true, &mut |name, _| names.push(name.to_owned()));
}

/// Visits each named lifetime of a type, with that of the nearest reference around it that has a name.
///
/// What references imply doesn't reach into callbacks and traits; they are gone into only where all names are asked for.
fn visit<'t>(ty: &'t Type, around: Option<&'t str>, callbacks: bool, seen: &mut impl FnMut(&str, Option<&str>)) {
    match ty {
        Type::Named(path) | Type::SelfType(path) => visit_path(path, around, seen),
        Type::Reference { reference, to } => visit(to, enter(reference, around, seen), callbacks, seen),
        Type::Box(inside) | Type::Option { inside, .. } => visit(inside, around, callbacks, seen),
        Type::Result { ok, err, .. } => {
            visit(ok, around, callbacks, seen);
            visit(err, around, callbacks, seen);
        }
        Type::Str { lifetime: Some(lifetime), .. } => visit_lifetime(lifetime, around, seen),
        Type::Slice { borrow: Some(borrow), .. } => {
            enter(borrow, around, seen);
        }
        Type::CustomSlice { borrow, of, .. } => {
            let inner = borrow.as_ref().map_or(around, |borrow| enter(borrow, around, seen));
            visit(of, inner, callbacks, seen);
        }
        Type::Impl(path) if callbacks => visit_path(path, around, seen),
        Type::Function { params, ret, .. } if callbacks => {
            params.iter().chain(ret.as_deref()).for_each(|part| visit(part, around, callbacks, seen));
        }
        _ => {}
    }
}

/// Visits the lifetime of a reference, and answers which lifetime is around what it leads to.
fn enter<'t>(
    reference: &'t Reference,
    around: Option<&'t str>,
    seen: &mut impl FnMut(&str, Option<&str>),
) -> Option<&'t str> {
    visit_lifetime(&reference.lifetime, around, seen);
    match &reference.lifetime {
        Lifetime::Named(name) => Some(name),
        Lifetime::Static | Lifetime::Anonymous => around,
    }
}

fn visit_path(path: &Path, around: Option<&str>, seen: &mut impl FnMut(&str, Option<&str>)) {
    path.lifetimes.iter().for_each(|lifetime| visit_lifetime(lifetime, around, seen));
}

fn visit_lifetime(lifetime: &Lifetime, around: Option<&str>, seen: &mut impl FnMut(&str, Option<&str>)) {
    if let Lifetime::Named(name) = lifetime {
        seen(name, around);
    }
}
