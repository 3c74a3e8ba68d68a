//! What can't be exported, and where it stands.

use proc_macro2::Span;
use std::cell::RefCell;
use std::fmt;
use std::path::{Path, PathBuf};
use std::rc::Rc;

/// One thing that can't be exported.
#[derive(Debug, Clone, PartialEq, Eq)]
pub struct Fault {
    /// The file in which it stands.
    pub file: PathBuf,
    /// Line and column, both from 1, where the fault has a place within the file.
    pub place: Option<(usize, usize)>,
    /// What is wrong.
    pub text: String,
}

impl fmt::Display for Fault {
    fn fmt(&self, f: &mut fmt::Formatter<'_>) -> fmt::Result {
        write!(f, "{}:", self.file.display())?;
        if let Some((line, column)) = self.place {
            write!(f, "{line}:{column}:")?;
        }
        write!(f, " {}", self.text)
    }
}

/// The mark of a reading that failed and whose fault was told.
#[derive(Debug, Clone, Copy, PartialEq, Eq)]
pub struct Told;

/// All faults of an export, in the order in which they were found.
#[derive(Debug, Default)]
pub struct Faults {
    list: RefCell<Vec<Fault>>,
}

impl Faults {
    /// Tells a fault of a whole file.
    pub fn of_file(&self, file: &Path, text: impl Into<String>) -> Told {
        self.push(file, None, text.into())
    }

    fn push(&self, file: &Path, place: Option<(usize, usize)>, text: String) -> Told {
        let fault = Fault { file: file.to_owned(), place, text };
        let mut list = self.list.borrow_mut();
        if !list.contains(&fault) {
            list.push(fault);
        }
        Told
    }

    /// The faults, those of a file together and in the order of their places.
    pub fn into_sorted(self) -> Vec<Fault> {
        let mut list = self.list.into_inner();
        let files: Vec<PathBuf> = list.iter().map(|fault| fault.file.clone()).collect();
        let first_met = |fault: &Fault| files.iter().position(|file| *file == fault.file);
        list.sort_by_cached_key(|fault| (first_met(fault), fault.place));
        list
    }
}

/// A file that is being read, to which faults can be told.
#[derive(Debug, Clone)]
pub struct Source<'f> {
    file: Rc<Path>,
    faults: &'f Faults,
}

impl<'f> Source<'f> {
    /// The file of that path.
    pub fn new(file: &Path, faults: &'f Faults) -> Self {
        Source { file: Rc::from(file), faults }
    }

    /// The path of the file.
    pub fn file(&self) -> &Path {
        &self.file
    }

    /// The list to which faults go.
    pub fn faults(&self) -> &'f Faults {
        self.faults
    }

    /// Tells a fault at the beginning of a piece of the file.
    pub fn fault(&self, span: Span, text: impl Into<String>) -> Told {
        let start = span.start();
        self.faults.push(&self.file, Some((start.line, start.column + 1)), text.into())
    }

    /// Tells each fault that the parser found.
    pub fn syntax(&self, error: syn::Error) -> Told {
        for part in error {
            self.fault(part.span(), format!("this can't be read: {part}"));
        }
        Told
    }
}

/// Reads each entry, so that the faults of all are told, and answers the list where none has any.
pub fn all<T>(entries: impl Iterator<Item = Result<T, Told>>) -> Result<Vec<T>, Told> {
    let read: Vec<_> = entries.collect();
    read.into_iter().collect()
}
