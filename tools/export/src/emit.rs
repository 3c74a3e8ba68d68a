//! Declarations as JSON. A key whose value is what its absence stands for is left out.

use crate::declarations::*;
use serde_json::{json, Map, Value};

/// Writes a JSON object key by key.
#[derive(Default)]
struct Object(Map<String, Value>);

impl Object {
    fn with(mut self, key: &str, value: impl Into<Value>) -> Self {
        self.0.insert(key.to_owned(), value.into());
        self
    }

    fn with_some(self, key: &str, value: Option<Value>) -> Self {
        match value {
            Some(value) => self.with(key, value),
            None => self,
        }
    }

    fn with_flag(self, key: &str, flag: bool) -> Self {
        self.with_some(key, flag.then_some(Value::Bool(true)))
    }

    fn with_list(self, key: &str, list: Vec<Value>) -> Self {
        self.with_some(key, (!list.is_empty()).then_some(Value::Array(list)))
    }

    /// An object that has keys at all.
    fn with_part(self, key: &str, part: Object) -> Self {
        self.with_some(key, (!part.0.is_empty()).then_some(Value::Object(part.0)))
    }
}

impl From<Object> for Value {
    fn from(object: Object) -> Value {
        Value::Object(object.0)
    }
}

/// Which symbols of functions are written.
#[derive(Debug, Clone, PartialEq, Eq)]
pub enum Symbols {
    All,
    None,
    Only(Vec<String>),
}

impl Symbols {
    /// The symbol, where it is to be written and isn't the plain name.
    fn written(&self, symbol: &str, name: &str) -> Option<Value> {
        let wanted = match self {
            Symbols::All => true,
            Symbols::None => false,
            Symbols::Only(list) => list.iter().any(|listed| listed == symbol),
        };
        (wanted && symbol != name).then(|| symbol.into())
    }
}

/// A module with all that stands in it.
pub fn module(module: &Module, symbols: &Symbols) -> Value {
    Object::default()
        .with_some("name", module.name.clone().map(Value::from))
        .with_part("attrs", attrs(&module.attrs))
        .with_list("items", list(&module.items, |entry| item(entry, symbols)))
        .with_list("aliases", list(&module.aliases, alias))
        .with_list("modules", list(&module.modules, |entry| self::module(entry, symbols)))
        .into()
}

fn list<T>(entries: &[T], write: impl FnMut(&T) -> Value) -> Vec<Value> {
    entries.iter().map(write).collect()
}

fn alias(alias: &Alias) -> Value {
    json!({"name": alias.name, "target": alias.target})
}

fn item(item: &Item, symbols: &Symbols) -> Value {
    let start = Object::default().with("kind", kind_name(&item.kind)).with("name", item.name.clone());
    let methods = |list: &[Method]| self::list(list, |entry| method(entry, symbols));
    match &item.kind {
        ItemKind::Struct { lifetimes, fields, methods: own, .. } => start
            .with_list("lifetimes", list(lifetimes, node))
            .with_list("fields", list(fields, field))
            .with_list("methods", methods(own)),
        ItemKind::Opaque { lifetimes, mutable, methods: own, destructor } => start
            .with_list("lifetimes", list(lifetimes, node))
            .with_flag("mutable", *mutable)
            .with_list("methods", methods(own))
            .with_some("dtor_abi_name", symbols.written(destructor, &item.name)),
        ItemKind::Enum { variants, methods: own } => {
            start.with_list("variants", list(variants, variant)).with_list("methods", methods(own))
        }
        ItemKind::Trait { lifetimes, methods: own, is_send, is_sync } => start
            .with_list("lifetimes", list(lifetimes, node))
            .with_list("methods", list(own, trait_method))
            .with_flag("is_send", *is_send)
            .with_flag("is_sync", *is_sync),
        ItemKind::Function { symbol, signature } => {
            self::signature(start, signature).with_some("abi_name", symbols.written(symbol, &item.name))
        }
    }
    .with_part("docs", docs(&item.docs))
    .with_part("attrs", attrs(&item.attrs))
    .into()
}

fn kind_name(kind: &ItemKind) -> &'static str {
    match kind {
        ItemKind::Struct { output_only: false, .. } => "struct",
        ItemKind::Struct { output_only: true, .. } => "out_struct",
        ItemKind::Opaque { .. } => "opaque",
        ItemKind::Enum { .. } => "enum",
        ItemKind::Trait { .. } => "trait",
        ItemKind::Function { .. } => "function",
    }
}

fn field(field: &Field) -> Value {
    Object::default()
        .with("name", field.name.clone())
        .with("ty", ty(&field.ty))
        .with_part("docs", docs(&field.docs))
        .with_part("attrs", attrs(&field.attrs))
        .into()
}

fn variant(variant: &Variant) -> Value {
    Object::default()
        .with("name", variant.name.clone())
        .with("discriminant", variant.discriminant)
        .with_part("docs", docs(&variant.docs))
        .with_part("attrs", attrs(&variant.attrs))
        .into()
}

fn signature(start: Object, signature: &Signature) -> Object {
    start
        .with_list("lifetimes", list(&signature.lifetimes, node))
        .with_list("params", list(&signature.params, param))
        .with_some("ret", signature.ret.as_ref().map(ty))
}

fn method(method: &Method, symbols: &Symbols) -> Value {
    let start = Object::default()
        .with("name", method.name.clone())
        .with_some("abi_name", symbols.written(&method.symbol, &method.name))
        .with("self_type", path(&method.self_type))
        .with_some("self", method.receiver.as_ref().map(receiver));
    signature(start, &method.signature)
        .with_part("docs", docs(&method.docs))
        .with_part("attrs", attrs(&method.attrs))
        .into()
}

fn trait_method(method: &TraitMethod) -> Value {
    let start = Object::default()
        .with("name", method.name.clone())
        .with_some("self", method.receiver.as_ref().map(receiver));
    signature(start, &method.signature)
        .with_part("docs", docs(&method.docs))
        .with_part("attrs", attrs(&method.attrs))
        .into()
}

fn receiver(receiver: &Receiver) -> Value {
    Object::default()
        .with_some("reference", receiver.reference.as_ref().map(|it| reference(it).into()))
        .with("path", path(&receiver.path))
        .with_part("attrs", attrs(&receiver.attrs))
        .into()
}

fn param(param: &Param) -> Value {
    Object::default()
        .with("name", param.name.clone())
        .with("ty", ty(&param.ty))
        .with_part("attrs", attrs(&param.attrs))
        .into()
}

fn node(node: &LifetimeNode) -> Value {
    let places = |places: &[usize]| list(places, |place| Value::from(*place));
    Object::default()
        .with("name", node.name.clone())
        .with_list("longer", places(&node.longer))
        .with_list("shorter", places(&node.shorter))
        .into()
}

fn lifetime(lifetime: &Lifetime) -> Value {
    match lifetime {
        Lifetime::Static => "static".into(),
        Lifetime::Anonymous => "_".into(),
        Lifetime::Named(name) => name.clone().into(),
    }
}

fn reference(reference: &Reference) -> Object {
    Object::default()
        .with("lifetime", lifetime(&reference.lifetime))
        .with_flag("mutable", reference.mutable)
}

fn path(path: &Path) -> Value {
    Object::default()
        .with("segments", path.segments.clone())
        .with_list("lifetimes", list(&path.lifetimes, lifetime))
        .into()
}

fn encoding(encoding: Encoding) -> &'static str {
    match encoding {
        Encoding::Utf8 => "utf8",
        Encoding::UnvalidatedUtf8 => "unvalidated_utf8",
        Encoding::UnvalidatedUtf16 => "unvalidated_utf16",
    }
}

/// A type.
pub fn ty(ty: &Type) -> Value {
    let inside = self::ty;
    match ty {
        Type::Primitive(name) => (*name).into(),
        Type::Ordering => "ordering".into(),
        Type::Unit => "unit".into(),
        Type::Named(name) => json!({ "named": path(name) }),
        Type::SelfType(name) => json!({ "self": path(name) }),
        Type::Impl(name) => json!({ "impl": path(name) }),
        Type::Reference { reference: borrow, to } => {
            json!({ "ref": Value::from(reference(borrow).with("to", inside(to))) })
        }
        Type::Box(to) => json!({ "box": inside(to) }),
        Type::Option { inside: of, std } => one(if *std { "option" } else { "diplomat_option" }, inside(of)),
        Type::Result { ok, err, std } => {
            one(if *std { "result" } else { "diplomat_result" }, json!({"ok": inside(ok), "err": inside(err)}))
        }
        Type::Write(Written::Str) => json!({"write": "str"}),
        Type::Write(Written::Str16) => json!({"write": "str16"}),
        Type::Write(Written::Primitive(name)) => json!({ "write": name }),
        Type::Function { params, ret, mutable } => {
            let function = Object::default().with_list("params", list(params, inside));
            one(
                "fn",
                function
                    .with_some("ret", ret.as_deref().map(inside))
                    .with_flag("mutable", *mutable)
                    .into(),
            )
        }
        Type::Str { .. } | Type::Strs { .. } | Type::Slice { .. } | Type::CustomSlice { .. } => slice(ty),
    }
}

fn one(key: &str, value: Value) -> Value {
    Object::default().with(key, value).into()
}

/// A type that is a slice of some kind.
fn slice(ty: &Type) -> Value {
    let borrowed = |borrow: &Option<Reference>| borrow.as_ref().map(reference).unwrap_or_default();
    let (key, object, std) = match ty {
        Type::Str { lifetime: of, encoding: by, std } => {
            let start = Object::default().with_some("lifetime", of.as_ref().map(lifetime));
            ("str", start.with("encoding", encoding(*by)), *std)
        }
        Type::Strs { encoding: by, std } => ("strs", Object::default().with("encoding", encoding(*by)), *std),
        Type::Slice { borrow, of, std } => ("slice", borrowed(borrow).with("of", *of), *std),
        Type::CustomSlice { borrow, of, std } => ("custom_slice", borrowed(borrow).with("of", self::ty(of)), *std),
        _ => return Value::Null,
    };
    one(key, object.with_flag("std", std).into())
}

fn attrs(attrs: &Attrs) -> Object {
    Object::default()
        .with_list("features", attrs.features.iter().cloned().map(Value::from).collect())
        .with_list("marks", list(&attrs.marks, mark))
        .with_some("abi_rename", attrs.abi_rename.clone().map(Value::from))
        .with_some("deprecated", attrs.deprecated.clone().map(Value::from))
}

fn mark(mark: &Mark) -> Value {
    let start = Object::default().with("if", condition(&mark.condition)).with("mark", mark.path.clone());
    match &mark.argument {
        Argument::None => start,
        Argument::Literal(value) => start.with("value", literal(value)),
        Argument::Assignments(list) => {
            let entry = |(name, value): &(String, Literal)| json!({"name": name, "value": literal(value)});
            start.with("list", list.iter().map(entry).collect::<Vec<_>>())
        }
    }
    .into()
}

fn literal(literal: &Literal) -> Value {
    match literal {
        Literal::Bool(value) => json!({ "bool": value }),
        Literal::Char(value) => json!({ "char": value.to_string() }),
        Literal::Byte(value) => json!({ "byte": value }),
        Literal::Int(digits) => json!({ "int": digits }),
        Literal::Float(digits) => json!({ "float": digits }),
        Literal::Str(value) => json!({ "str": value }),
        Literal::Other => "other".into(),
    }
}

fn condition(condition: &Condition) -> Value {
    let conditions = |parts: &[Condition]| Value::Array(list(parts, self::condition));
    match condition {
        Condition::Always => "*".into(),
        Condition::Auto => "auto".into(),
        Condition::Backend(name) => json!({ "backend": name }),
        Condition::Pair(name, value) => json!({ "pair": [name, value] }),
        Condition::Not(part) => json!({ "not": self::condition(part) }),
        Condition::Any(parts) => json!({ "any": conditions(parts) }),
        Condition::All(parts) => json!({ "all": conditions(parts) }),
    }
}

fn docs(docs: &Docs) -> Object {
    let block = |block: &Block| json!({"if": condition(&block.condition), "lines": block.lines});
    let link = |link: &Link| json!({"path": link.path, "kind": link.kind, "display": link.display});
    Object::default()
        .with_list("blocks", list(&docs.blocks, block))
        .with_list("links", list(&docs.links, link))
}
