//! `derive_mmio::Mmio`.

use proc_macro::TokenStream;

use crate::parse::{self, Item, Member};

pub fn expand(item: TokenStream) -> String {
    let item = Item::new(item);
    let accessors = item.members.iter().map(|field| accessors(&item.name, field)).collect::<String>();
    format!(
        "/// Access to the registers of [{name}].
        {vis} struct Mmio{name}<'a> {{
            base: usize,
            block: core::marker::PhantomData<&'a mut {name}>,
        }}
        impl {name} {{
            /// The block at an address.
            ///
            /// # Safety
            ///
            /// Of the real crate: the block is there, and nobody else uses it. The recorder needs neither.
            #[inline]
            pub const unsafe fn new_mmio_at(base: usize) -> Mmio{name}<'static> {{
                Mmio{name} {{ base, block: core::marker::PhantomData }}
            }}
        }}
        #[allow(clippy::useless_transmute, reason = \"some registers are plain words\")]
        impl Mmio{name}<'_> {{ {accessors} }}",
        name = item.name,
        vis = item.vis,
    )
}

fn accessors(block: &str, field: &Member) -> String {
    if field.name.starts_with('_') {
        return String::new();
    }
    let allowed = match field.attr("mmio") {
        Some(attr) => parse::args(attr.args.clone()),
        None => ["PureRead", "Write", "Modify"].map(String::from).to_vec(),
    };
    let offset = format!("core::mem::offset_of!({block}, {})", field.name);
    allowed.iter().map(|access| accessor(access, &offset, &field.name, &field.value)).collect()
}

/// A register is four bytes of which each pattern is a value, as the real crate's volatile accesses need.
fn accessor(access: &str, offset: &str, name: &str, ty: &str) -> String {
    let body = match access {
        "PureRead" => read("&self", offset, name, ty),
        "Read" => read("&mut self", offset, name, ty),
        "Write" => format!(
            "/// One write.
            pub fn write_{name}(&mut self, value: {ty}) {{
                // SAFETY: a register is four bytes without padding.
                let word = unsafe {{ core::mem::transmute::<{ty}, u32>(value) }};
                ::recorder::write(self.base, {offset} as u32, word);
            }}"
        ),
        "Modify" => format!(
            "/// One read, then one write.
            pub fn modify_{name}(&mut self, f: impl FnOnce({ty}) -> {ty}) {{
                let value = self.read_{name}();
                self.write_{name}(f(value));
            }}"
        ),
        "Inner" => format!(
            "/// The block inside.
            pub fn {name}(&mut self) -> {inner}<'_> {{
                // SAFETY: the inner block is a part of this one, lent as long as this one is.
                unsafe {{ {ty}::new_mmio_at(self.base + {offset}) }}
            }}",
            inner = inner(ty),
        ),
        _ => panic!("{name}: {access} is no access"),
    };
    format!("#[inline] {body}")
}

fn read(this: &str, offset: &str, name: &str, ty: &str) -> String {
    format!(
        "/// One read.
        pub fn read_{name}({this}) -> {ty} {{
            let word = ::recorder::read(self.base, {offset} as u32);
            // SAFETY: each pattern of a register's four bytes is a value.
            unsafe {{ core::mem::transmute::<u32, {ty}>(word) }}
        }}"
    )
}

fn inner(ty: &str) -> String {
    let ty = ty.replace(char::is_whitespace, "");
    match ty.rsplit_once("::") {
        Some((path, name)) => format!("{path}::Mmio{name}"),
        None => format!("Mmio{ty}"),
    }
}
