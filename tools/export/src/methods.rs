//! Functions, the methods of impl blocks and the methods of traits.

use crate::attrs::Attributes;
use crate::declarations::*;
use crate::faults::{all, Source, Told};
use crate::items::Bridge;
use crate::lifetimes::{names_in, without_unused, LifetimeList};
use crate::names::{function_symbol, method_symbol};
use crate::paths;
use crate::types::TypeReader;
use syn::spanned::Spanned;
use syn::{FnArg, ImplItem, ImplItemMethod, ItemFn, ItemImpl, Pat, PatType, TraitItem, TraitItemMethod, Visibility};

/// An impl block: the type that it is of, and its methods.
#[derive(Debug)]
pub struct ImplBlock {
    pub type_name: String,
    pub methods: Vec<Method>,
}

/// Reads an impl block. One of a trait has nothing that crosses the bridge.
pub fn impl_block(block: &ItemImpl, bridge: &Bridge) -> Result<Option<ImplBlock>, Told> {
    let source = bridge.source;
    let attributes = Attributes::read(&block.attrs, source);
    if block.trait_.is_some() || attributes.as_ref().map_or(false, |read| read.is_test) {
        return Ok(None);
    }
    let attrs = attributes.and_then(|read| read.without_role(source)).map(|(attrs, _)| attrs);
    let lifetimes = LifetimeList::of(&block.generics, source);
    let holder = Holder {
        self_type: self_type(block, bridge)?,
        lifetimes: lifetimes.clone().unwrap_or_default(),
        parent: attrs.clone().unwrap_or_default().under(&bridge.parent).handed_to_methods(),
        bridge,
    };
    let methods = all(block.items.iter().filter_map(|item| holder.method(item)));
    attrs.and(lifetimes)?;
    Ok(Some(ImplBlock { type_name: holder.type_name().to_owned(), methods: methods? }))
}

fn self_type(block: &ItemImpl, bridge: &Bridge) -> Result<Path, Told> {
    let path = match block.self_ty.as_ref() {
        syn::Type::Path(path) if path.qself.is_none() => paths::read(&path.path, bridge.source)?,
        other => return Err(bridge.source.fault(other.span(), "an impl block is of a type that has a name")),
    };
    match path.segments.as_slice() {
        [name] if bridge.types.contains(name) => Ok(path),
        _ => {
            let text = "no type of this module has this name, and an impl block lies in the module of its type";
            Err(bridge.source.fault(block.self_ty.span(), text))
        }
    }
}

/// An impl block, as its methods see it.
struct Holder<'h, 'f> {
    self_type: Path,
    lifetimes: LifetimeList,
    parent: Attrs,
    bridge: &'h Bridge<'h, 'f>,
}

impl Holder<'_, '_> {
    fn type_name(&self) -> &str {
        self.self_type.segments.last().map_or("", String::as_str)
    }

    fn method(&self, item: &ImplItem) -> Option<Result<Method, Told>> {
        match item {
            ImplItem::Method(method) if is_public(&method.vis) => self.public(method).transpose(),
            ImplItem::Macro(made) => {
                Some(Err(self.bridge.source.fault(made.span(), "what a macro makes can't be exported")))
            }
            _ => None,
        }
    }

    fn public(&self, method: &ImplItemMethod) -> Result<Option<Method>, Told> {
        let attributes = Attributes::read(&method.attrs, self.bridge.source);
        if attributes.as_ref().map_or(false, |read| read.is_test) {
            return Ok(None);
        }
        let types = self.bridge.types_of(Some(&self.self_type));
        let name = &method.sig.ident;
        let signature = read(&method.sig, self.lifetimes.clone(), &self.self_type, &types);
        let (attrs, docs) = attributes?.without_role(self.bridge.source)?;
        let attrs = attrs.under(&self.parent);
        let (receiver, signature) = signature?;
        Ok(Some(Method {
            name: name.to_string(),
            symbol: method_symbol(attrs.abi_rename.as_deref(), self.type_name(), name),
            self_type: self.self_type.clone(),
            receiver,
            signature,
            docs,
            attrs,
        }))
    }
}

/// Whether an item is `pub`, and not only for a part of the crate.
pub fn is_public(visibility: &Visibility) -> bool {
    matches!(visibility, Visibility::Public(_))
}

/// Reads a free function.
pub fn function(function: &ItemFn, attrs: &Attrs, bridge: &Bridge) -> Result<ItemKind, Told> {
    let nothing = Path { segments: Vec::new(), lifetimes: Vec::new() };
    let (_, signature) = read(&function.sig, LifetimeList::default(), &nothing, &bridge.types_of(None))?;
    Ok(ItemKind::Function { symbol: function_symbol(attrs.abi_rename.as_deref(), &function.sig.ident), signature })
}

/// Reads a method of a trait, whose lifetimes are those of the trait that it uses, and its own.
pub fn trait_method(
    item: &TraitItem,
    outer: &LifetimeList,
    this: &Path,
    parent: &Attrs,
    bridge: &Bridge,
) -> Option<Result<TraitMethod, Told>> {
    match item {
        TraitItem::Method(method) => TraitHolder { outer, this, parent, bridge }.method(method).transpose(),
        other => Some(Err(bridge.source.fault(other.span(), "a trait of the bridge has methods alone"))),
    }
}

/// A trait, as its methods see it.
struct TraitHolder<'h, 'f> {
    outer: &'h LifetimeList,
    this: &'h Path,
    parent: &'h Attrs,
    bridge: &'h Bridge<'h, 'f>,
}

impl TraitHolder<'_, '_> {
    fn method(&self, method: &TraitItemMethod) -> Result<Option<TraitMethod>, Told> {
        let attributes = Attributes::read(&method.attrs, self.bridge.source);
        if attributes.as_ref().map_or(false, |read| read.is_test) {
            return Ok(None);
        }
        let signature = read(&method.sig, self.outer.clone(), self.this, &self.bridge.types_of(None));
        let (attrs, docs) = attributes?.without_role(self.bridge.source)?;
        let (receiver, mut signature) = signature?;
        signature.lifetimes = self.used(&receiver, &signature);
        Ok(Some(TraitMethod {
            name: method.sig.ident.to_string(),
            receiver,
            signature,
            docs,
            attrs: attrs.under(self.parent),
        }))
    }

    /// The lifetimes of a method; those of the trait are among them where it uses one.
    fn used(&self, receiver: &Option<Receiver>, signature: &Signature) -> Vec<LifetimeNode> {
        let mut names = Vec::new();
        for ty in signature.params.iter().map(|param| &param.ty).chain(&signature.ret) {
            names_in(ty, &mut names);
        }
        let reference = receiver.as_ref().and_then(|receiver| receiver.reference.as_ref());
        if let Some(Reference { lifetime: Lifetime::Named(name), .. }) = reference {
            names.push(name.clone());
        }
        without_unused(signature.lifetimes.clone(), self.outer.count(), &names)
    }
}

/// Reads a signature. Its lifetimes come after those that are given.
fn read(
    signature: &syn::Signature,
    mut lifetimes: LifetimeList,
    this: &Path,
    types: &TypeReader,
) -> Result<(Option<Receiver>, Signature), Told> {
    let shape = shape(signature, types.source);
    let declared = lifetimes.declare(&signature.generics, types.source);
    let receiver = signature.receiver().map(|input| self::receiver(input, this, types)).transpose();
    let params = all(signature.inputs.iter().filter_map(|input| match input {
        FnArg::Typed(typed) if !is_receiver(typed) => Some(param(typed, types)),
        _ => None,
    }));
    let ret = types.returned(&signature.output);
    shape.and(declared)?;
    let (receiver, params, ret) = (receiver?, params?, ret?);
    receiver.iter().for_each(|receiver| lifetimes.imply_of_receiver(receiver));
    params.iter().map(|param| &param.ty).chain(&ret).for_each(|ty| lifetimes.imply(ty));
    Ok((receiver, Signature { lifetimes: lifetimes.into_nodes(), params, ret }))
}

/// Whether a function is of a shape that crosses the bridge.
fn shape(signature: &syn::Signature, source: &Source) -> Result<(), Told> {
    match (&signature.asyncness, &signature.variadic) {
        (Some(word), _) => Err(source.fault(word.span(), "an async function can't be exported")),
        (_, Some(dots)) => Err(source.fault(dots.span(), "the number of parameters has to be fixed")),
        _ => Ok(()),
    }
}

fn is_receiver(input: &PatType) -> bool {
    matches!(input.pat.as_ref(), Pat::Ident(name) if name.ident == "self")
}

fn receiver(input: &FnArg, this: &Path, types: &TypeReader) -> Result<Receiver, Told> {
    let source = types.source;
    let (list, reference) = match input {
        FnArg::Receiver(receiver) => {
            let mutable = receiver.mutability.is_some();
            let reference = receiver
                .reference
                .as_ref()
                .map(|(_, lifetime)| Reference { lifetime: Lifetime::from(lifetime.as_ref()), mutable });
            (&receiver.attrs, reference)
        }
        FnArg::Typed(typed) => (&typed.attrs, typed_reference(&typed.ty, this, types)?),
    };
    let (attrs, _) = Attributes::read(list, source)?.without_role(source)?;
    Ok(Receiver { reference, path: this.clone(), attrs })
}

/// The reference in `self: &Self`; none in `self: Self`.
fn typed_reference(ty: &syn::Type, this: &Path, types: &TypeReader) -> Result<Option<Reference>, Told> {
    let is_this = |ty: &Type| matches!(ty, Type::SelfType(_)) || *ty == Type::Named(this.clone());
    match (TypeReader { self_type: Some(this), ..*types }).read(ty)? {
        of if is_this(&of) => Ok(None),
        Type::Reference { reference, to } if is_this(&to) => Ok(Some(reference)),
        _ => Err(types.source.fault(ty.span(), "a receiver is taken by value or by reference")),
    }
}

fn param(input: &PatType, types: &TypeReader) -> Result<Param, Told> {
    let source = types.source;
    let name = match input.pat.as_ref() {
        Pat::Ident(name) if name.by_ref.is_none() && name.subpat.is_none() => Ok(name.ident.to_string()),
        other => Err(source.fault(other.span(), "a parameter of the bridge has a name, and no pattern")),
    };
    let attributes = Attributes::read(&input.attrs, source).and_then(|read| read.without_role(source));
    let ty = types.read(&input.ty);
    Ok(Param { name: name?, attrs: attributes?.0, ty: ty? })
}
