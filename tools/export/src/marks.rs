//! The arguments of Diplomat's attributes.

use crate::declarations::{Argument, Condition, Link, Literal, Mark};
use syn::ext::IdentExt;
use syn::parse::{Parse, ParseStream};
use syn::punctuated::Punctuated;
use syn::{parenthesized, token, Expr, ExprLit, Ident, Lit, LitStr, Result, Token};

/// Kinds of what a link leads to.
const LINK_KINDS: [&str; 22] = [
    "Mod",
    "Struct",
    "Enum",
    "Trait",
    "Fn",
    "Macro",
    "Constant",
    "Typedef",
    "FnInStruct",
    "FnInEnum",
    "FnInTypedef",
    "FnInTrait",
    "DefaultFnInTrait",
    "EnumVariant",
    "StructField",
    "AssociatedTypeInEnum",
    "AssociatedTypeInStruct",
    "AssociatedTypeInTrait",
    "AssociatedConstantInEnum",
    "AssociatedConstantInStruct",
    "AssociatedConstantInTrait",
    "EnumVariantField",
];

impl Parse for Mark {
    fn parse(input: ParseStream) -> Result<Self> {
        let condition = input.parse()?;
        input.parse::<Token![,]>()?;
        let path = names(input)?;
        let argument = argument(input)?;
        input.parse::<Option<Token![,]>>()?;
        Ok(Mark { condition, path, argument })
    }
}

/// A path of names, which may be words of the language.
fn names(input: ParseStream) -> Result<Vec<String>> {
    let mut names = vec![Ident::parse_any(input)?.to_string()];
    while input.peek(Token![::]) {
        input.parse::<Token![::]>()?;
        names.push(Ident::parse_any(input)?.to_string());
    }
    Ok(names)
}

fn argument(input: ParseStream) -> Result<Argument> {
    if input.peek(Token![=]) {
        input.parse::<Token![=]>()?;
        return Ok(Argument::Literal(literal(input)?));
    }
    if !input.peek(token::Paren) {
        return Ok(Argument::None);
    }
    let content;
    parenthesized!(content in input);
    if content.is_empty() || (content.peek(Ident::peek_any) && content.peek2(Token![=])) {
        let list = Punctuated::<Assignment, Token![,]>::parse_terminated(&content)?;
        return Ok(Argument::Assignments(list.into_iter().map(|entry| (entry.name, entry.value)).collect()));
    }
    let value = literal(&content)?;
    match content.parse::<Option<Token![,]>>()? {
        _ if content.is_empty() => Ok(Argument::Literal(value)),
        _ => Err(content.error("a mark has one literal, or a list of `name = literal`")),
    }
}

struct Assignment {
    name: String,
    value: Literal,
}

impl Parse for Assignment {
    fn parse(input: ParseStream) -> Result<Self> {
        let name = Ident::parse_any(input)?.to_string();
        input.parse::<Token![=]>()?;
        Ok(Assignment { name, value: literal(input)? })
    }
}

/// A literal, or `Other` where another expression stands.
fn literal(input: ParseStream) -> Result<Literal> {
    let lit = match input.parse::<Expr>()? {
        Expr::Lit(ExprLit { lit, .. }) => lit,
        _ => return Ok(Literal::Other),
    };
    Ok(match lit {
        Lit::Bool(value) => Literal::Bool(value.value),
        Lit::Char(value) => Literal::Char(value.value()),
        Lit::Byte(value) => Literal::Byte(value.value()),
        Lit::Int(value) => Literal::Int(value.base10_digits().to_owned()),
        Lit::Float(value) => Literal::Float(value.base10_digits().to_owned()),
        Lit::Str(value) => Literal::Str(value.value()),
        _ => Literal::Other,
    })
}

impl Parse for Link {
    fn parse(input: ParseStream) -> Result<Self> {
        let path = names(input)?;
        input.parse::<Token![,]>()?;
        let kind = Ident::parse_any(input)?;
        if !LINK_KINDS.iter().any(|known| kind == known) {
            return Err(syn::Error::new(kind.span(), format!("no kind of link is named `{kind}`")));
        }
        let mut display = "normal";
        if input.peek(Token![,]) && input.peek2(Ident::peek_any) {
            input.parse::<Token![,]>()?;
            display = link_display(input)?;
        }
        input.parse::<Option<Token![,]>>()?;
        Ok(Link { path, kind: kind.to_string(), display })
    }
}

fn link_display(input: ParseStream) -> Result<&'static str> {
    let word = Ident::parse_any(input)?;
    match word.to_string().as_str() {
        "compact" => Ok("compact"),
        "hidden" => Ok("hidden"),
        _ => Err(syn::Error::new(word.span(), "a link is `compact` or `hidden`, or neither word stands")),
    }
}

/// The text in `name = "text"` or `name("text")`, after the name.
pub struct Text(pub LitStr);

impl Parse for Text {
    fn parse(input: ParseStream) -> Result<Self> {
        if input.peek(token::Paren) {
            let content;
            parenthesized!(content in input);
            return Ok(Text(content.parse()?));
        }
        input.parse::<Token![=]>()?;
        Ok(Text(input.parse()?))
    }
}

/// The mark that `#[diplomat::cfg(condition)]` stands for: disabled where the condition doesn't hold.
pub fn disabled_unless(condition: Condition) -> Mark {
    Mark {
        condition: Condition::Not(Box::new(condition)),
        path: vec!["disable".to_owned()],
        argument: Argument::None,
    }
}
