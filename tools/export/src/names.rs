//! Names of declarations, and the symbols of the functions that the bridge makes of them.

use syn::Ident;

/// The place of a name in a pattern of symbols.
pub const NAME_PLACE: &str = "{0}";

/// The name without the `r#` of a raw identifier.
fn bare(name: &str) -> &str {
    name.strip_prefix("r#").unwrap_or(name)
}

/// The symbol of a method.
pub fn method_symbol(pattern: Option<&str>, type_name: &str, method: &Ident) -> String {
    renamed(pattern, &format!("{}_{}", bare(type_name), bare(&method.to_string())))
}

/// The symbol of the function that frees an opaque.
pub fn destructor_symbol(pattern: Option<&str>, type_name: &str) -> String {
    renamed(pattern, &format!("{}_destroy", bare(type_name)))
}

/// The symbol of a free function, which has a prefix so that it differs from the function itself.
pub fn function_symbol(pattern: Option<&str>, name: &Ident) -> String {
    renamed(pattern, &format!("diplomat_external_{}", bare(&name.to_string())))
}

fn renamed(pattern: Option<&str>, plain: &str) -> String {
    match pattern {
        Some(pattern) => pattern.replacen(NAME_PLACE, plain, 1),
        None => plain.to_owned(),
    }
}
