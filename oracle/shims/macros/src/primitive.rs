//! `num_enum::TryFromPrimitive`, for enums with `repr(u8)`.

use proc_macro::TokenStream;

use crate::parse::Item;

pub fn expand(item: TokenStream) -> String {
    let item = Item::new(item);
    let repr = item.attrs.iter().find(|attr| attr.path == "repr").map(|attr| attr.args.to_string());
    assert!(repr.as_deref() == Some("u8"), "{} is not repr(u8)", item.name);
    let arm = |number: &str, name: &str| format!("{number} => Ok(Self::{name}), ");
    let arms = item.members.iter().map(|variant| arm(&variant.value, &variant.name)).collect::<String>();
    format!(
        "impl ::num_enum::TryFromPrimitive for {name} {{
            type Primitive = u8;
        }}
        impl TryFrom<u8> for {name} {{
            type Error = ::num_enum::TryFromPrimitiveError<Self>;
            fn try_from(number: u8) -> Result<Self, Self::Error> {{
                match number {{ {arms} _ => Err(::num_enum::TryFromPrimitiveError {{ number }}) }}
            }}
        }}",
        name = item.name,
    )
}
