//! `use` declarations inside a bridge: other names for what it has.

use crate::declarations::Alias;
use proc_macro2::Span;
use std::collections::BTreeSet;
use syn::{ItemUse, UseTree};

/// An alias, and where it stands.
#[derive(Debug, Clone)]
pub struct Found {
    pub alias: Alias,
    pub span: Span,
}

/// Adds the aliases of one declaration. Those by `*` and into other crates by `::` aren't among them.
pub fn find(item: &ItemUse, found: &mut Vec<Found>) {
    if item.leading_colon.is_none() {
        walk(&item.tree, &mut Vec::new(), found);
    }
}

fn walk(tree: &UseTree, prefix: &mut Vec<String>, found: &mut Vec<Found>) {
    match tree {
        UseTree::Path(path) => {
            prefix.push(path.ident.to_string());
            walk(&path.tree, prefix, found);
            prefix.pop();
        }
        UseTree::Name(name) => leaf(&name.ident, None, prefix, found),
        UseTree::Rename(rename) => leaf(&rename.ident, Some(&rename.rename), prefix, found),
        UseTree::Group(group) => group.items.iter().for_each(|tree| walk(tree, prefix, found)),
        UseTree::Glob(_) => {}
    }
}

fn leaf(last: &syn::Ident, rename: Option<&syn::Ident>, prefix: &[String], found: &mut Vec<Found>) {
    let mut target = prefix.to_vec();
    if last != "self" || prefix.is_empty() {
        target.push(last.to_string());
    }
    let name = rename.map(ToString::to_string).or_else(|| target.last().cloned()).unwrap_or_default();
    if name != "_" {
        found.push(Found { alias: Alias { name, target }, span: rename.unwrap_or(last).span() });
    }
}

/// Keeps the aliases that lead into this crate: from `crate`, `self`, `super`, or a name that the module has.
pub fn within_crate(found: Vec<Found>, names: &BTreeSet<String>) -> Vec<Found> {
    let mut known: BTreeSet<String> = names.clone();
    known.extend(["crate", "self", "super"].map(str::to_owned));
    let mut kept = Vec::new();
    let mut rest = found;
    loop {
        let leads_inside = |found: &Found| found.alias.target.first().map_or(false, |first| known.contains(first));
        let (inside, outside): (Vec<_>, Vec<_>) = rest.into_iter().partition(leads_inside);
        if inside.is_empty() {
            return kept;
        }
        known.extend(inside.iter().map(|found| found.alias.name.clone()));
        kept.extend(inside);
        rest = outside;
    }
}
