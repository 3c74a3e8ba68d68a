//! Reads the bridges of Rust crates, as Diplomat has them, and writes their declarations as the JSON of docs/INPUT.md.

mod attrs;
mod conditions;
pub mod declarations;
mod docs;
pub mod emit;
pub mod faults;
mod files;
mod items;
mod lifetimes;
mod marks;
mod methods;
mod modules;
mod names;
mod paths;
pub mod settings;
mod types;
mod uses;
mod words;

use declarations::Module;
use faults::{all, Fault, Faults, Told};
use serde_json::{Map, Value};
use settings::Settings;
use std::path::PathBuf;

/// The input that the files make, or all that can't be exported of them.
pub fn export(settings: &Settings) -> Result<Value, Vec<Fault>> {
    let faults = Faults::default();
    match root(&settings.files, &faults) {
        Ok(root) => {
            let root = ("root".to_owned(), emit::module(&root, &settings.symbols));
            Ok(Value::Object(settings.besides.clone().into_iter().chain([root]).collect::<Map<_, _>>()))
        }
        Err(Told) => Err(faults.into_sorted()),
    }
}

/// One root for all files, with the modules of each.
fn root(files: &[PathBuf], faults: &Faults) -> Result<Module, Told> {
    let roots = all(files.iter().map(|file| modules::read_root(file, faults)))?;
    let mut whole = Module::default();
    let mut outcome = Ok(());
    for (root, file) in roots.into_iter().zip(files) {
        if let Some(name) = root.names().find(|name| whole.names().any(|taken| taken == *name)) {
            outcome = Err(faults.of_file(file, format!("an earlier file has the name `{name}` in its root already")));
        }
        whole.attrs = root.attrs.under(&whole.attrs);
        whole.items.extend(root.items);
        whole.aliases.extend(root.aliases);
        whole.modules.extend(root.modules);
    }
    outcome.map(|()| whole)
}
