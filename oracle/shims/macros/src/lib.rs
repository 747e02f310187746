//! The macros of the stand-ins for `bitbybit`, `derive-mmio`, `num_enum` and `thiserror`, with the standard library
//! alone. What each assumes of the real crate stands in the crate that re-exports it. A macro reads its item into
//! [parse::Item] and writes its code as text.

use proc_macro::TokenStream;

mod bitenum;
mod bitfield;
mod error;
mod mmio;
mod parse;
mod primitive;

#[proc_macro_attribute]
pub fn bitenum(args: TokenStream, item: TokenStream) -> TokenStream {
    code(bitenum::expand(args, item))
}

#[proc_macro_attribute]
pub fn bitfield(args: TokenStream, item: TokenStream) -> TokenStream {
    code(bitfield::expand(args, item))
}

#[proc_macro_derive(Mmio, attributes(mmio))]
pub fn mmio(item: TokenStream) -> TokenStream {
    code(mmio::expand(item))
}

#[proc_macro_derive(TryFromPrimitive)]
pub fn try_from_primitive(item: TokenStream) -> TokenStream {
    code(primitive::expand(item))
}

#[proc_macro_derive(Error, attributes(error, from))]
pub fn error(item: TokenStream) -> TokenStream {
    code(error::expand(item))
}

fn code(text: String) -> TokenStream {
    text.parse().unwrap_or_else(|error| panic!("{error} in:\n{text}"))
}
