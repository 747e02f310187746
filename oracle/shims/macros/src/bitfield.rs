//! `bitbybit::bitfield`.

use proc_macro::TokenStream;

use crate::{
    bitenum::raw_type,
    parse::{self, Item, Member},
};

struct Field {
    name: String,
    low: u32,
    bits: u32,
    kind: Kind,
    read: bool,
    write: bool,
}

/// What stands between a field's bits and its value; the text is the type as written.
enum Kind {
    Bool,
    Number(String),
    Enum(String),
    /// `Option<Enum>`.
    Partial(String),
}

pub fn expand(args: TokenStream, item: TokenStream) -> String {
    let args = parse::args(args);
    let item = Item::new(item);
    let base = &args[0];
    let width = base.strip_prefix('u').map(parse::number).expect("bitfield has a width") as u32;
    let default = args.iter().find_map(|arg| arg.strip_prefix("default="));
    let fields = item.members.iter().map(Field::new).collect::<Vec<_>>();
    check(&item.name, &fields, width, args.iter().any(|arg| arg == "forbid_overlaps"));
    let mut text = block(&item, base, &fields);
    if let Some(default) = default {
        text += &builder(&item, base, default, &fields);
    }
    if args.iter().any(|arg| arg == "debug") {
        text += &debug(&item.name, &fields);
    }
    text
}

/// The fields lie within the width and, where asked for, apart from each other.
fn check(name: &str, fields: &[Field], width: u32, apart: bool) {
    let mut taken = 0_u64;
    for field in fields {
        assert!(field.low + field.bits <= width, "{name}.{} is outside of {width} bits", field.name);
        assert!(!apart || taken & field.mask() == 0, "{name}.{} overlaps", field.name);
        taken |= field.mask();
    }
}

fn block(item: &Item, base: &str, fields: &[Field]) -> String {
    let accessors = fields.iter().map(|field| field.accessors(base)).collect::<String>();
    format!(
        "{attrs}
        #[derive(Clone, Copy)]
        #[repr(transparent)]
        {vis} struct {name} {{ raw_value: {base} }}
        impl {name} {{
            /// All bits clear.
            pub const ZERO: Self = Self::new_with_raw_value(0);
            /// The register's bits.
            #[inline]
            pub const fn raw_value(self) -> {base} {{ self.raw_value }}
            /// A register with these bits.
            #[inline]
            pub const fn new_with_raw_value(raw_value: {base}) -> Self {{ Self {{ raw_value }} }}
            {accessors}
        }}",
        attrs = item.attr_text(),
        vis = item.vis,
        name = item.name,
    )
}

/// A builder with one yes/no for each writable field, so that `build` exists once all are set.
fn builder(item: &Item, base: &str, default: &str, fields: &[Field]) -> String {
    let name = &item.name;
    let writable = fields.iter().filter(|field| field.write).collect::<Vec<_>>();
    let marks = |at: usize, value: &str| {
        (0..writable.len()).map(|i| if i == at { value.into() } else { format!("F{i}") }).collect::<Vec<_>>().join(", ")
    };
    let params = |but: usize| {
        let kept = (0..writable.len()).filter(|i| *i != but);
        kept.map(|i| format!("const F{i}: bool")).collect::<Vec<_>>().join(", ")
    };
    let every = |value: &str| vec![value; writable.len()].join(", ");
    let setters = writable.iter().enumerate().map(|(i, field)| {
        format!(
            "impl<{params}> Partial{name}<{unset}> {{
                /// Sets the field.
                #[inline]
                pub const fn with_{field}(self, value: {ty}) -> Partial{name}<{set}> {{
                    Partial{name}(self.0.with_{field}(value))
                }}
            }}",
            params = params(i),
            unset = marks(i, "false"),
            set = marks(i, "true"),
            field = field.name,
            ty = field.ty(),
        )
    });
    format!(
        "impl {name} {{
            /// The bits before any field is set.
            pub const DEFAULT: Self = Self::new_with_raw_value({default} as {base});
            /// A builder that wants every writable field.
            #[inline]
            pub const fn builder() -> Partial{name}<{none}> {{ Partial{name}(Self::DEFAULT) }}
        }}
        impl Default for {name} {{
            fn default() -> Self {{ Self::DEFAULT }}
        }}
        /// A register of which some fields are set.
        {vis} struct Partial{name}<{all}>({name});
        {setters}
        impl Partial{name}<{done}> {{
            /// The register.
            #[inline]
            pub const fn build(self) -> {name} {{ self.0 }}
        }}",
        vis = item.vis,
        none = every("false"),
        all = params(usize::MAX),
        setters = setters.collect::<String>(),
        done = every("true"),
    )
}

fn debug(name: &str, fields: &[Field]) -> String {
    let readable = fields.iter().filter(|field| field.read);
    let calls = readable.map(|field| format!(".field(\"{0}\", &self.{0}())", field.name)).collect::<String>();
    format!(
        "impl core::fmt::Debug for {name} {{
            fn fmt(&self, f: &mut core::fmt::Formatter<'_>) -> core::fmt::Result {{
                f.debug_struct(\"{name}\"){calls}.finish()
            }}
        }}"
    )
}

impl Field {
    fn new(member: &Member) -> Self {
        let (args, ranged) = match (member.attr("bit"), member.attr("bits")) {
            (Some(attr), None) => (parse::args(attr.args.clone()), false),
            (None, Some(attr)) => (parse::args(attr.args.clone()), true),
            _ => panic!("field {} has no place", member.name),
        };
        let (low, high) = if ranged { args[0].split_once("..=").expect("a range") } else { (&*args[0], &*args[0]) };
        let (low, high) = (parse::number(low) as u32, parse::number(high) as u32);
        assert!(low <= high && ranged == (low < high), "field {} has no such place", member.name);
        let field = Self {
            name: member.name.clone(),
            low,
            bits: high - low + 1,
            kind: Kind::new(&member.value),
            read: args[1].contains('r'),
            write: args[1].contains('w'),
        };
        field.check_width();
        field
    }

    /// A field's type has as many bits as the field; the compiler checks it for an enum.
    fn check_width(&self) {
        let width = match &self.kind {
            Kind::Bool => 1,
            Kind::Number(ty) => parse::number(&ty[1..]) as u32,
            Kind::Enum(_) | Kind::Partial(_) => self.bits,
        };
        assert!(width == self.bits, "field {} has {} bits, not {width}", self.name, self.bits);
    }

    fn mask(&self) -> u64 {
        ((1 << self.bits) - 1) << self.low
    }

    /// The type that is set.
    fn ty(&self) -> &str {
        match &self.kind {
            Kind::Bool => "bool",
            Kind::Number(ty) | Kind::Enum(ty) | Kind::Partial(ty) => ty,
        }
    }

    fn accessors(&self, base: &str) -> String {
        let mut text = String::new();
        if self.read {
            text += &self.getter();
        }
        if self.write {
            text += &self.setters(base);
        }
        text
    }

    fn getter(&self) -> String {
        let bits = format!("((self.raw_value & {}) >> {})", self.mask(), self.low);
        let raw = match self.bits {
            8 | 16 | 32 => format!("{bits} as u{}", self.bits),
            1..8 => format!("{}::new({bits} as u8)", raw_type(self.bits)),
            9..16 => format!("{}::new({bits} as u16)", raw_type(self.bits)),
            _ => format!("{}::new({bits} as u32)", raw_type(self.bits)),
        };
        let (gives, value) = match &self.kind {
            Kind::Bool => ("bool".to_string(), format!("{bits} != 0")),
            Kind::Number(ty) => (ty.clone(), raw),
            Kind::Enum(ty) => (ty.clone(), format!("{ty}::new_with_raw_value({raw})")),
            Kind::Partial(ty) => (format!("Result<{ty}, u8>"), format!("{ty}::new_with_raw_value({raw})")),
        };
        format!(
            "/// The field's value.
            #[inline]
            pub const fn {}(&self) -> {gives} {{ {value} }}",
            self.name
        )
    }

    fn setters(&self, base: &str) -> String {
        let number = match (&self.kind, self.bits) {
            (Kind::Bool, _) | (Kind::Number(_), 8 | 16 | 32) => "value",
            (Kind::Number(_), _) => "value.value()",
            (Kind::Enum(_) | Kind::Partial(_), 8) => "value.raw_value()",
            (Kind::Enum(_) | Kind::Partial(_), _) => "value.raw_value().value()",
        };
        format!(
            "/// The register with the field changed.
            #[inline]
            pub const fn with_{name}(&self, value: {ty}) -> Self {{
                Self::new_with_raw_value((self.raw_value & !{mask}) | (({number} as {base}) << {low}))
            }}
            /// Changes the field.
            #[inline]
            pub const fn set_{name}(&mut self, value: {ty}) {{ *self = self.with_{name}(value); }}",
            name = self.name,
            ty = self.ty(),
            mask = self.mask(),
            low = self.low,
        )
    }
}

impl Kind {
    fn new(ty: &str) -> Self {
        let ty = ty.replace(char::is_whitespace, "");
        if ty == "bool" {
            Self::Bool
        } else if ty.strip_prefix('u').is_some_and(|width| width.parse::<u32>().is_ok()) {
            Self::Number(ty)
        } else if let Some(inner) = ty.strip_prefix("Option<").and_then(|rest| rest.strip_suffix('>')) {
            Self::Partial(inner.to_string())
        } else {
            Self::Enum(ty)
        }
    }
}
