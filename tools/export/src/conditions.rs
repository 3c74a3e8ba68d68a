//! Conditions: the backends that a mark or a block of documentation is for.

use crate::declarations::Condition;
use syn::ext::IdentExt;
use syn::parse::{Parse, ParseStream};
use syn::punctuated::Punctuated;
use syn::{parenthesized, token, Ident, LitStr, Result, Token};

impl Parse for Condition {
    fn parse(input: ParseStream) -> Result<Self> {
        if input.peek(Token![*]) {
            input.parse::<Token![*]>()?;
            return Ok(Condition::Always);
        }
        let name = Ident::parse_any(input)?;
        if input.peek(token::Paren) {
            return combined(&name, input);
        }
        if input.peek(Token![=]) {
            input.parse::<Token![=]>()?;
            return Ok(Condition::Pair(name.to_string(), pair_value(input)?));
        }
        Ok(if name == "auto" {
            Condition::Auto
        } else {
            Condition::Backend(name.to_string())
        })
    }
}

fn pair_value(input: ParseStream) -> Result<String> {
    if input.peek(LitStr) {
        Ok(input.parse::<LitStr>()?.value())
    } else {
        Ok(Ident::parse_any(input)?.to_string())
    }
}

fn combined(name: &Ident, input: ParseStream) -> Result<Condition> {
    let content;
    parenthesized!(content in input);
    let parts: Vec<Condition> = Punctuated::<Condition, Token![,]>::parse_terminated(&content)?.into_iter().collect();
    match name.to_string().as_str() {
        "any" => Ok(Condition::Any(parts)),
        "all" => Ok(Condition::All(parts)),
        "not" => match <[Condition; 1]>::try_from(parts) {
            Ok([part]) => Ok(Condition::Not(Box::new(part))),
            Err(_) => Err(syn::Error::new(name.span(), "`not` has exactly one condition")),
        },
        _ => Err(syn::Error::new(name.span(), "a condition is `any`, `all` or `not` of conditions")),
    }
}
