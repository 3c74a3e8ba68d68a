//! Modules: those that are bridges, and those that have bridges within them.

use crate::attrs::{is_bridge, Attributes};
use crate::declarations::{Alias, Attrs, Item, Module};
use crate::faults::{all, Faults, Source, Told};
use crate::files::{path_attribute, too_deep, Folders, Parsed, DEEPEST};
use crate::items::Bridge;
use crate::methods::{impl_block, is_public, ImplBlock};
use crate::uses;
use proc_macro2::Span;
use std::collections::BTreeSet;
use std::path::Path;
use syn::ItemMod;

/// Reads a file as the root of a crate.
pub fn read_root(file: &Path, faults: &Faults) -> Result<Module, Told> {
    let parsed = Parsed::root(file, faults)?;
    let place = Place { source: &parsed.source, folders: &parsed.folders, depth: 0 };
    let attrs = place.attrs(&parsed.syntax.attrs)?;
    place.contents(is_bridge(&parsed.syntax.attrs), attrs.unwrap_or_default(), &parsed.syntax.items)
}

/// A module within its file.
struct Place<'p, 'f> {
    source: &'p Source<'f>,
    folders: &'p Folders,
    depth: usize,
}

impl Place<'_, '_> {
    /// What stands in a module: that of a bridge, and the modules that are bridges or have some.
    fn contents(&self, is_bridge: bool, attrs: Attrs, items: &[syn::Item]) -> Result<Module, Told> {
        let own = if is_bridge {
            self.bridge(&attrs, items)
        } else {
            Ok((Vec::new(), Vec::new()))
        };
        let modules = all(items.iter().filter_map(|item| match item {
            syn::Item::Mod(item) => self.module(item).transpose(),
            _ => None,
        }));
        let (own_items, aliases) = own?;
        let modules = modules?;
        let is_kept = is_bridge || !modules.is_empty();
        let module = Module { name: None, is_kept, attrs, items: own_items, aliases, modules };
        self.tell_taken(&module, items)?;
        Ok(module)
    }

    /// Tells each module within that has the name of something else: of a function, or of a module under another `cfg`.
    fn tell_taken(&self, module: &Module, syntax: &[syn::Item]) -> Result<(), Told> {
        let kept: Vec<&str> = module.modules.iter().filter_map(|inner| inner.name.as_deref()).collect();
        let items = module.items.iter().map(|item| &item.name);
        let mut taken: BTreeSet<String> =
            items.chain(module.aliases.iter().map(|alias| &alias.name)).cloned().collect();
        all(syntax.iter().map(|item| match item {
            syn::Item::Mod(item) => {
                let name = item.ident.to_string();
                let is_free = !kept.contains(&name.as_str()) || taken.insert(name.clone());
                is_free.then_some(()).ok_or_else(|| name_taken(&name, item.ident.span(), self.source))
            }
            _ => Ok(()),
        }))?;
        Ok(())
    }

    /// The attributes of a module; none of one that is there in tests alone.
    fn attrs(&self, list: &[syn::Attribute]) -> Result<Option<Attrs>, Told> {
        let read = Attributes::read(list, self.source)?;
        if read.is_test {
            return Ok(None);
        }
        read.of_module(self.source).map(Some)
    }

    /// Reads a module. One without a bridge in it is left out.
    fn module(&self, item: &ItemMod) -> Result<Option<Module>, Told> {
        if self.depth == DEEPEST {
            return Err(too_deep(item.ident.span(), self.source));
        }
        let attrs = match self.attrs(&item.attrs) {
            Ok(None) => return Ok(None),
            Ok(Some(attrs)) => Ok(attrs),
            Err(told) => Err(told),
        };
        let known = attrs.clone().unwrap_or_default();
        let path = path_attribute(&item.attrs);
        let name = item.ident.to_string();
        let module = match &item.content {
            Some((_, items)) => {
                let folders = self.folders.of_inline(&name, path.as_deref());
                let place = Place { folders: &folders, depth: self.depth + 1, ..*self };
                place.contents(is_bridge(&item.attrs), known, items)
            }
            None => Parsed::of_module(&item.ident, path.as_deref(), self.folders, self.source)
                .and_then(|parsed| self.of_file(&parsed, is_bridge(&item.attrs), &known)),
        };
        attrs?;
        Ok(Some(Module { name: Some(name), ..module? }).filter(|module| module.is_kept))
    }

    /// A module whose contents are a file, which may have attributes of its own at its beginning.
    fn of_file(&self, parsed: &Parsed, is_marked: bool, outer: &Attrs) -> Result<Module, Told> {
        let place = Place { source: &parsed.source, folders: &parsed.folders, depth: self.depth + 1 };
        let list = &parsed.syntax.attrs;
        let inner = place.attrs(list)?.unwrap_or_default();
        let deprecated = inner.deprecated.clone().or_else(|| outer.deprecated.clone());
        let attrs = Attrs { deprecated, ..inner.under(outer) };
        place.contents(is_marked || is_bridge(list), attrs, &parsed.syntax.items)
    }

    /// The items and aliases of a bridge, with the methods of its impl blocks in their types.
    fn bridge(&self, attrs: &Attrs, syntax: &[syn::Item]) -> Result<(Vec<Item>, Vec<Alias>), Told> {
        let names = Names::of(syntax);
        let distinct = names.tell_repeated(self.source);
        let bridge = Bridge {
            source: self.source,
            parent: attrs.handed_down(),
            has_own_ordering: names.has("Ordering"),
            types: names.types,
        };
        let items = all(syntax.iter().filter_map(|item| bridge.item(item)));
        let blocks = all(syntax.iter().filter_map(|item| match item {
            syn::Item::Impl(block) => impl_block(block, &bridge).transpose(),
            _ => None,
        }));
        distinct?;
        let mut items = items?;
        blocks?.into_iter().for_each(|block| merge(block, &mut items));
        Ok((items, names.aliases.into_iter().map(|found| found.alias).collect()))
    }
}

/// Adds the methods of an impl block to those of its type.
fn merge(block: ImplBlock, items: &mut [Item]) {
    let of_block = items.iter_mut().find(|item| item.name == block.type_name);
    if let Some(methods) = of_block.and_then(|item| item.kind.methods_mut()) {
        methods.extend(block.methods);
    }
}

/// The names that a bridge declares.
struct Names {
    types: BTreeSet<String>,
    aliases: Vec<uses::Found>,
    all: Vec<(String, Span)>,
}

impl Names {
    fn of(syntax: &[syn::Item]) -> Self {
        let mut types = BTreeSet::new();
        let mut all = Vec::new();
        let mut modules = Vec::new();
        let mut found = Vec::new();
        for item in syntax {
            match item {
                syn::Item::Use(item) => uses::find(item, &mut found),
                syn::Item::Mod(item) => modules.push(item.ident.to_string()),
                _ => {
                    if let Some((name, is_type)) = declared(item) {
                        types.extend(is_type.then(|| name.to_string()));
                        all.push((name.to_string(), name.span()));
                    }
                }
            }
        }
        let known = all.iter().map(|(name, _)| name.clone()).chain(modules).collect();
        let aliases = without_repeated(uses::within_crate(found, &known));
        all.extend(aliases.iter().map(|found| (found.alias.name.clone(), found.span)));
        Names { types, aliases, all }
    }

    fn has(&self, name: &str) -> bool {
        self.all.iter().any(|(known, _)| known == name)
    }

    /// Tells each name that stands for two things: items have one namespace.
    fn tell_repeated(&self, source: &Source) -> Result<(), Told> {
        let mut seen = BTreeSet::new();
        all(self.all.iter().map(|(name, span)| match seen.insert(name) {
            true => Ok(()),
            false => Err(name_taken(name, *span, source)),
        }))?;
        Ok(())
    }
}

fn name_taken(name: &str, span: Span, source: &Source) -> Told {
    source.fault(span, format!("the name `{name}` is taken already in this module"))
}

/// The name of an item that crosses the bridge, and whether it is that of a type with impl blocks.
fn declared(item: &syn::Item) -> Option<(&syn::Ident, bool)> {
    match item {
        syn::Item::Struct(item) => Some((&item.ident, true)),
        syn::Item::Enum(item) => Some((&item.ident, true)),
        syn::Item::Trait(item) => Some((&item.ident, false)),
        syn::Item::Fn(item) if is_public(&item.vis) => Some((&item.sig.ident, false)),
        _ => None,
    }
}

/// The aliases, each once.
fn without_repeated(found: Vec<uses::Found>) -> Vec<uses::Found> {
    let mut kept: Vec<uses::Found> = Vec::new();
    for alias in found {
        if kept.iter().all(|earlier| earlier.alias != alias.alias) {
            kept.push(alias);
        }
    }
    kept
}
