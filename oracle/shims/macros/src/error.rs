//! `thiserror::Error`, for enums whose variants have one field or none.

use proc_macro::TokenStream;

use crate::parse::{Item, Member};

pub fn expand(item: TokenStream) -> String {
    let item = Item::new(item);
    let of = |one: fn(&str, &Member) -> String| item.members.iter().map(|v| one(&item.name, v)).collect::<String>();
    format!(
        "impl core::fmt::Display for {name} {{
            fn fmt(&self, f: &mut core::fmt::Formatter<'_>) -> core::fmt::Result {{
                match self {{ {texts} }}
            }}
        }}
        impl core::error::Error for {name} {{
            fn source(&self) -> Option<&(dyn core::error::Error + 'static)> {{
                match self {{ {sources} _ => None }}
            }}
        }}
        {conversions}",
        name = item.name,
        texts = of(text),
        sources = of(source),
        conversions = of(conversion),
    )
}

fn text(_: &str, variant: &Member) -> String {
    let name = &variant.name;
    let text = variant.attr("error").unwrap_or_else(|| panic!("{name} has no text")).args.to_string();
    match (variant.fields.len(), text.contains("{0")) {
        (0, false) => format!("Self::{name} => write!(f, {text}), "),
        (1, false) => format!("Self::{name}(_) => write!(f, {text}), "),
        (1, true) => format!("Self::{name}(field) => write!(f, {text}, field), "),
        _ => panic!("{name} has fields that are not known here"),
    }
}

fn from(variant: &Member) -> Option<&Member> {
    variant.fields.iter().find(|field| field.attr("from").is_some())
}

fn source(_: &str, variant: &Member) -> String {
    match from(variant) {
        Some(_) => format!("Self::{}(source) => Some(source), ", variant.name),
        None => String::new(),
    }
}

fn conversion(name: &str, variant: &Member) -> String {
    let Some(field) = from(variant) else { return String::new() };
    format!(
        "impl From<{ty}> for {name} {{
            fn from(source: {ty}) -> Self {{ Self::{variant}(source) }}
        }}",
        ty = field.value,
        variant = variant.name,
    )
}
