//! Where the files of modules lie.

use crate::faults::{Faults, Source, Told};
use proc_macro2::Span;
use std::fs;
use std::path::{Path, PathBuf};

/// The folders in which the files of a module's own modules are looked for.
#[derive(Debug, Clone)]
pub struct Folders {
    /// Where a path of `#[path]` begins.
    beside: PathBuf,
    /// Where `name.rs` and `name/mod.rs` lie.
    below: PathBuf,
}

impl Folders {
    /// Those of a file that has its modules beside it: the root of a crate, a `mod.rs`, or a file named by `#[path]`.
    fn of_folder(file: &Path) -> Self {
        let folder = file.parent().unwrap_or(Path::new("")).to_owned();
        Folders { beside: folder.clone(), below: folder }
    }

    /// Those of a file `name.rs`, which has its modules in a folder `name` beside it.
    fn of_name(file: &Path) -> Self {
        Folders { below: file.with_extension(""), ..Folders::of_folder(file) }
    }

    /// Those of a module that stands in the same file.
    pub fn of_inline(&self, name: &str, path: Option<&str>) -> Self {
        let folder = match path {
            Some(path) => self.beside.join(path),
            None => self.below.join(name),
        };
        Folders { beside: folder.clone(), below: folder }
    }

    /// The file of a module `mod name;`.
    fn file_of(&self, name: &str, path: Option<&str>) -> Result<(PathBuf, Folders), String> {
        if let Some(path) = path {
            let file = self.beside.join(path);
            return Ok((file.clone(), Folders::of_folder(&file)));
        }
        let (flat, nested) = (self.below.join(format!("{name}.rs")), self.below.join(name).join("mod.rs"));
        match (flat.is_file(), nested.is_file()) {
            (true, false) => Ok((flat.clone(), Folders::of_name(&flat))),
            (false, true) => Ok((nested.clone(), Folders::of_folder(&nested))),
            (true, true) => Err(format!("both {} and {} are there", flat.display(), nested.display())),
            (false, false) => Err(format!("neither {} nor {} is there", flat.display(), nested.display())),
        }
    }
}

/// A file that was parsed.
pub struct Parsed<'f> {
    pub source: Source<'f>,
    pub syntax: syn::File,
    pub folders: Folders,
}

impl<'f> Parsed<'f> {
    /// The root of a crate.
    pub fn root(file: &Path, faults: &'f Faults) -> Result<Self, Told> {
        Parsed::open(file, Folders::of_folder(file), faults)
    }

    /// The file of a module `mod name;`, which is declared in another file.
    pub fn of_module(
        name: &syn::Ident,
        path: Option<&str>,
        folders: &Folders,
        source: &Source<'f>,
    ) -> Result<Self, Told> {
        let plain = name.to_string();
        let plain = plain.strip_prefix("r#").unwrap_or(&plain);
        let (file, inner) = folders.file_of(plain, path).map_err(|text| source.fault(name.span(), text))?;
        if same_file(&file, source.file()) {
            return Err(source.fault(name.span(), "the file of this module is the file that declares it"));
        }
        Parsed::open(&file, inner, source.faults())
    }

    fn open(file: &Path, folders: Folders, faults: &'f Faults) -> Result<Self, Told> {
        let source = Source::new(file, faults);
        let bytes = fs::read(file).map_err(|error| faults.of_file(file, format!("it can't be read: {error}")))?;
        let text = String::from_utf8(bytes).map_err(|_| faults.of_file(file, "its text isn't UTF-8"))?;
        let syntax = syn::parse_file(&text).map_err(|error| source.syntax(error))?;
        Ok(Parsed { source, syntax, folders })
    }
}

fn same_file(one: &Path, other: &Path) -> bool {
    match (fs::canonicalize(one), fs::canonicalize(other)) {
        (Ok(one), Ok(other)) => one == other,
        _ => false,
    }
}

/// The text of `#[path = ".."]`.
pub fn path_attribute(list: &[syn::Attribute]) -> Option<String> {
    list.iter()
        .filter(|attribute| attribute.path.is_ident("path"))
        .find_map(|attribute| match attribute.parse_meta() {
            Ok(syn::Meta::NameValue(syn::MetaNameValue { lit: syn::Lit::Str(text), .. })) => Some(text.value()),
            _ => None,
        })
}

/// How deep modules may nest: a file that declares itself by way of others would have no end.
pub const DEEPEST: usize = 64;

/// Tells that modules nest too deep.
pub fn too_deep(span: Span, source: &Source) -> Told {
    source.fault(span, format!("modules nest more than {DEEPEST} deep; does a file declare itself?"))
}
