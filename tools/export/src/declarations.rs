//! The declarations of a bridge, as docs/INPUT.md has them.

/// A module and all that stands in it. The root has no name.
#[derive(Debug, Clone, Default)]
pub struct Module {
    pub name: Option<String>,
    /// Whether it is a bridge, or has one within.
    pub is_kept: bool,
    pub attrs: Attrs,
    pub items: Vec<Item>,
    pub aliases: Vec<Alias>,
    pub modules: Vec<Module>,
}

impl Module {
    /// The names of what stands in it.
    pub fn names(&self) -> impl Iterator<Item = &str> {
        let modules = self.modules.iter().filter_map(|module| module.name.as_deref());
        let aliases = self.aliases.iter().map(|alias| alias.name.as_str());
        self.items.iter().map(|item| item.name.as_str()).chain(aliases).chain(modules)
    }
}

/// `use target as name`.
#[derive(Debug, Clone, PartialEq, Eq)]
pub struct Alias {
    pub name: String,
    pub target: Vec<String>,
}

/// An item of a module.
#[derive(Debug, Clone)]
pub struct Item {
    pub name: String,
    pub kind: ItemKind,
    pub docs: Docs,
    pub attrs: Attrs,
}

/// What an item is, with the keys of that kind.
#[derive(Debug, Clone)]
pub enum ItemKind {
    Struct { output_only: bool, lifetimes: Vec<LifetimeNode>, fields: Vec<Field>, methods: Vec<Method> },
    Opaque { lifetimes: Vec<LifetimeNode>, mutable: bool, methods: Vec<Method>, destructor: String },
    Enum { variants: Vec<Variant>, methods: Vec<Method> },
    Trait { lifetimes: Vec<LifetimeNode>, methods: Vec<TraitMethod>, is_send: bool, is_sync: bool },
    Function { symbol: String, signature: Signature },
}

impl ItemKind {
    /// The methods of a type; none for what has no impl blocks.
    pub fn methods_mut(&mut self) -> Option<&mut Vec<Method>> {
        match self {
            ItemKind::Struct { methods, .. } | ItemKind::Opaque { methods, .. } | ItemKind::Enum { methods, .. } => {
                Some(methods)
            }
            ItemKind::Trait { .. } | ItemKind::Function { .. } => None,
        }
    }
}

/// A field of a struct.
#[derive(Debug, Clone)]
pub struct Field {
    pub name: String,
    pub ty: Type,
    pub docs: Docs,
    pub attrs: Attrs,
}

/// A variant of an enum.
#[derive(Debug, Clone)]
pub struct Variant {
    pub name: String,
    pub discriminant: i64,
    pub docs: Docs,
    pub attrs: Attrs,
}

/// Lifetimes, parameters and the return of a function.
#[derive(Debug, Clone, Default)]
pub struct Signature {
    pub lifetimes: Vec<LifetimeNode>,
    pub params: Vec<Param>,
    pub ret: Option<Type>,
}

/// A method of a type.
#[derive(Debug, Clone)]
pub struct Method {
    pub name: String,
    pub symbol: String,
    pub self_type: Path,
    pub receiver: Option<Receiver>,
    pub signature: Signature,
    pub docs: Docs,
    pub attrs: Attrs,
}

/// A method of a trait.
#[derive(Debug, Clone)]
pub struct TraitMethod {
    pub name: String,
    pub receiver: Option<Receiver>,
    pub signature: Signature,
    pub docs: Docs,
    pub attrs: Attrs,
}

/// `&'a mut self`, or `self` where there is no reference.
#[derive(Debug, Clone)]
pub struct Receiver {
    pub reference: Option<Reference>,
    pub path: Path,
    pub attrs: Attrs,
}

/// A parameter.
#[derive(Debug, Clone)]
pub struct Param {
    pub name: String,
    pub ty: Type,
    pub attrs: Attrs,
}

/// A lifetime of a list of generics, with its direct bounds at both of their ends.
#[derive(Debug, Clone, PartialEq, Eq)]
pub struct LifetimeNode {
    pub name: String,
    pub longer: Vec<usize>,
    pub shorter: Vec<usize>,
}

/// A lifetime where it is used.
#[derive(Debug, Clone, PartialEq, Eq)]
pub enum Lifetime {
    Static,
    Anonymous,
    Named(String),
}

/// `&'a mut`.
#[derive(Debug, Clone, PartialEq, Eq)]
pub struct Reference {
    pub lifetime: Lifetime,
    pub mutable: bool,
}

/// A path with the lifetimes that are written in it.
#[derive(Debug, Clone, PartialEq, Eq)]
pub struct Path {
    pub segments: Vec<String>,
    pub lifetimes: Vec<Lifetime>,
}

/// How a string is encoded.
#[derive(Debug, Clone, Copy, PartialEq, Eq)]
pub enum Encoding {
    Utf8,
    UnvalidatedUtf8,
    UnvalidatedUtf16,
}

/// What a writer writes.
#[derive(Debug, Clone, Copy, PartialEq, Eq)]
pub enum Written {
    Str,
    Str16,
    Primitive(&'static str),
}

/// A type. `std` says that std's spelling was used, and not Diplomat's.
#[derive(Debug, Clone, PartialEq, Eq)]
pub enum Type {
    Primitive(&'static str),
    Ordering,
    Unit,
    Named(Path),
    SelfType(Path),
    Impl(Path),
    Reference { reference: Reference, to: Box<Type> },
    Box(Box<Type>),
    Option { inside: Box<Type>, std: bool },
    Result { ok: Box<Type>, err: Box<Type>, std: bool },
    Write(Written),
    Str { lifetime: Option<Lifetime>, encoding: Encoding, std: bool },
    Strs { encoding: Encoding, std: bool },
    Slice { borrow: Option<Reference>, of: &'static str, std: bool },
    CustomSlice { borrow: Option<Reference>, of: Box<Type>, std: bool },
    Function { params: Vec<Type>, ret: Option<Box<Type>>, mutable: bool },
}

/// The attributes of a declaration.
#[derive(Debug, Clone, Default, PartialEq, Eq)]
pub struct Attrs {
    pub features: Vec<String>,
    pub marks: Vec<Mark>,
    pub abi_rename: Option<String>,
    pub deprecated: Option<String>,
}

/// `#[diplomat::attr(condition, path)]`.
#[derive(Debug, Clone, PartialEq, Eq)]
pub struct Mark {
    pub condition: Condition,
    pub path: Vec<String>,
    pub argument: Argument,
}

/// The argument of a mark.
#[derive(Debug, Clone, PartialEq, Eq)]
pub enum Argument {
    None,
    Literal(Literal),
    Assignments(Vec<(String, Literal)>),
}

/// A literal.
#[derive(Debug, Clone, PartialEq, Eq)]
pub enum Literal {
    Bool(bool),
    Char(char),
    Byte(u8),
    Int(String),
    Float(String),
    Str(String),
    Other,
}

/// The backends that a mark or a block of documentation is for.
#[derive(Debug, Clone, PartialEq, Eq)]
pub enum Condition {
    Always,
    Auto,
    Backend(String),
    Pair(String, String),
    Not(Box<Condition>),
    Any(Vec<Condition>),
    All(Vec<Condition>),
}

/// The documentation of a declaration.
#[derive(Debug, Clone, Default, PartialEq, Eq)]
pub struct Docs {
    pub blocks: Vec<Block>,
    pub links: Vec<Link>,
}

/// Lines of documentation, and the backends that they are for.
#[derive(Debug, Clone, PartialEq, Eq)]
pub struct Block {
    pub condition: Condition,
    pub lines: String,
}

/// A link to something that is documented in Rust.
#[derive(Debug, Clone, PartialEq, Eq)]
pub struct Link {
    pub path: Vec<String>,
    pub kind: String,
    pub display: &'static str,
}
