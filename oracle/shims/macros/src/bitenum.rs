//! `bitbybit::bitenum`.

use proc_macro::TokenStream;

use crate::parse::{self, Item};

pub fn expand(args: TokenStream, item: TokenStream) -> String {
    let args = parse::args(args);
    let bits = args[0].strip_prefix('u').map(parse::number).expect("bitenum has a width") as u32;
    let item = Item::new(item);
    let exhaustive = args.iter().any(|arg| arg == "exhaustive=true");
    let all = item.members.len() == 1 << bits;
    assert!(exhaustive == all, "{}: {} variants, {bits} bits", item.name, item.members.len());
    let raw = raw_type(bits);
    let arms = item.members.iter().map(|variant| arm(&variant.value, &variant.name, exhaustive)).collect::<String>();
    let (result, value) = if bits == 8 { ("self as u8".into(), "value") } else { (of_u8(bits), "value.value()") };
    let (gives, other) =
        if exhaustive { ("Self", "unreachable!()".to_string()) } else { ("Result<Self, u8>", format!("Err({value})")) };
    format!(
        "{attrs}
        #[derive(Clone, Copy)]
        #[repr(u8)]
        {vis} enum {name} {{ {body} }}
        impl {name} {{
            /// The field's bits.
            #[inline]
            pub const fn raw_value(self) -> {raw} {{ {result} }}
            /// The variant with these bits.
            #[inline]
            pub const fn new_with_raw_value(value: {raw}) -> {gives} {{
                match {value} {{ {arms} #[allow(unreachable_patterns)] _ => {other} }}
            }}
        }}",
        attrs = item.attr_text(),
        vis = item.vis,
        name = item.name,
        body = item.body,
    )
}

/// The type of `bits` raw bits.
pub fn raw_type(bits: u32) -> String {
    if [8, 16, 32].contains(&bits) { format!("u{bits}") } else { format!("::arbitrary_int::u{bits}") }
}

fn of_u8(bits: u32) -> String {
    format!("{}::new(self as u8)", raw_type(bits))
}

fn arm(number: &str, name: &str, exhaustive: bool) -> String {
    if exhaustive { format!("{number} => Self::{name}, ") } else { format!("{number} => Ok(Self::{name}), ") }
}
