//! Documentation: lines, the backends that they are for, and links.

use crate::declarations::{Block, Condition, Docs, Link};
use crate::faults::{Source, Told};
use syn::{Attribute, Lit, Meta, MetaNameValue};

/// Gathers the documentation of one declaration.
#[derive(Debug, Default)]
pub struct DocsReader {
    blocks: Vec<Block>,
    links: Vec<Link>,
}

impl DocsReader {
    /// Reads `#[doc = "line"]`, which is what a comment `/// line` stands for.
    pub fn line(&mut self, attribute: &Attribute) {
        // What isn't a text is a note for rustdoc, as `#[doc(hidden)]`.
        let text = match attribute.parse_meta() {
            Ok(Meta::NameValue(MetaNameValue { lit: Lit::Str(text), .. })) => text,
            _ => return,
        };
        if self.blocks.is_empty() {
            self.begin(Condition::Always);
        }
        if let Some(block) = self.blocks.last_mut() {
            if !block.lines.is_empty() {
                block.lines.push('\n');
            }
            block.lines.push_str(text.value().trim());
        }
    }

    /// Reads `#[diplomat::docs(condition)]`: the lines after it are for those backends.
    pub fn condition(&mut self, attribute: &Attribute, source: &Source) -> Result<(), Told> {
        let condition = attribute.parse_args().map_err(|error| source.syntax(error))?;
        self.begin(condition);
        Ok(())
    }

    fn begin(&mut self, condition: Condition) {
        self.blocks.push(Block { condition, lines: String::new() });
    }

    /// Reads `#[diplomat::rust_link(path, kind)]`.
    pub fn link(&mut self, attribute: &Attribute, source: &Source) -> Result<(), Told> {
        self.links.push(attribute.parse_args().map_err(|error| source.syntax(error))?);
        Ok(())
    }

    /// The documentation, without blocks that have no text.
    pub fn finish(self) -> Docs {
        let blocks = self.blocks.into_iter().filter(|block| !block.lines.is_empty()).collect();
        Docs { blocks, links: self.links }
    }
}
