//! Stands for the crate `ethercrab-wire-derive` 0.2, which is not at hand.
//!
//! GUESS, all of it, from the attributes as the originals use them:
//! - A struct's fields lie one after the other in declared order, from bit 0 of byte 0; `pre_skip` and `post_skip` leave bits out. That the widths add up
//!   to the struct's own `bytes` or `bits` is checked here for every record, and it holds for all of them.
//! - `#[wire(skip)]` takes no bits and is the type's default.
//! - An enum reads its listed values and `alternatives`. An unlisted value is the variant marked `#[default]`; without one it is `InvalidValue`. The originals
//!   call `CategoryType::from` and `PortStatus::from`, which cannot fail, and `FmmuUsage::try_from` and `ProtocolType::try_from`, which can: that fits.

mod parse;

use parse::{Item, Marks};
use proc_macro::TokenStream;

#[proc_macro_derive(EtherCrabWireRead, attributes(wire))]
pub fn read(input: TokenStream) -> TokenStream {
    derive(input, true, false)
}

#[proc_macro_derive(EtherCrabWireWrite, attributes(wire))]
pub fn write(input: TokenStream) -> TokenStream {
    derive(input, false, true)
}

#[proc_macro_derive(EtherCrabWireReadWrite, attributes(wire))]
pub fn read_write(input: TokenStream) -> TokenStream {
    derive(input, true, true)
}

fn derive(input: TokenStream, reads: bool, writes: bool) -> TokenStream {
    let item = parse::item(input);
    let (bytes, read, write) = if item.is_enum { of_enum(&item) } else { of_struct(&item) };
    let mut out = sized(&item.name, bytes);
    if reads {
        out += &read;
    }
    if writes {
        out += &write;
    }
    out.parse().unwrap()
}

/// Its bytes, its reading, its writing.
fn of_struct(item: &Item) -> (usize, String, String) {
    let name = &item.name;
    let bits = item.marks.width.expect("a struct says its width");
    let bytes = bits.div_ceil(8);
    let (mut at, mut read, mut write) = (0, String::new(), String::new());
    for (Marks { skip, before, width, after, .. }, field, _) in &item.parts {
        if *skip {
            read += &format!("{field}: Default::default(),");
            continue;
        }
        at += before;
        let width = width.expect("a field says its width");
        read += &format!("{field}: ::ethercrab_wire::read_field(buf, {at}, {width})?,");
        write += &format!("::ethercrab_wire::write_field(&self.{field}, buf, {at}, {width});");
        at += width + after;
    }
    assert_eq!(at, bits, "the fields of {name} do not add up to its width");
    let read = format!(
        "let buf = buf.get(..{bytes}).ok_or(::ethercrab_wire::WireError::ReadBufferTooShort)?; Ok(Self {{ {read} }})"
    );
    (bytes, reading(name, &read), writing(name, bytes, &write))
}

/// The same for an enum, and its conversion from a number.
fn of_enum(item: &Item) -> (usize, String, String) {
    let name = &item.name;
    let repr = item.marks.repr.as_ref().expect("an enum says its repr");
    let bytes = item.marks.width.map_or(if repr == "u8" { 1 } else { 2 }, |bits| bits.div_ceil(8));
    let mut arms = String::new();
    for (marks, variant, value) in &item.parts {
        let values: Vec<&str> =
            [value.as_str()].into_iter().chain(marks.alternatives.iter().map(String::as_str)).collect();
        arms += &format!("{} => Self::{variant},", values.join(" | "));
    }
    let raw = format!("<{repr} as ::ethercrab_wire::EtherCrabWireRead>::unpack_from_slice(buf)?");
    let read = match item.parts.iter().find(|(marks, ..)| marks.default) {
        Some((_, variant, _)) => {
            format!("impl From<{repr}> for {name} {{ fn from(raw: {repr}) -> Self {{ match raw {{ {arms} _ => Self::{variant} }} }} }}")
                + &reading(name, &format!("Ok(Self::from({raw}))"))
        }
        None => {
            format!(
                "impl TryFrom<{repr}> for {name} {{
                    type Error = ::ethercrab_wire::WireError;
                    fn try_from(raw: {repr}) -> Result<Self, Self::Error> {{ Ok(match raw {{ {arms} _ => return Err(Self::Error::InvalidValue) }}) }}
                }}"
            ) + &reading(name, &format!("Self::try_from({raw})"))
        }
    };
    let write = format!("::ethercrab_wire::EtherCrabWireWrite::pack_to_slice_unchecked(&(*self as {repr}), buf);");
    (bytes, read, writing(name, bytes, &write))
}

fn sized(name: &str, bytes: usize) -> String {
    format!(
        "impl ::ethercrab_wire::EtherCrabWireSized for {name} {{
            const PACKED_LEN: usize = {bytes};
            type Buffer = [u8; {bytes}];
            fn buffer() -> Self::Buffer {{ [0; {bytes}] }}
        }}"
    )
}

fn reading(name: &str, body: &str) -> String {
    format!(
        "impl ::ethercrab_wire::EtherCrabWireRead for {name} {{
            fn unpack_from_slice(buf: &[u8]) -> Result<Self, ::ethercrab_wire::WireError> {{ {body} }}
        }}"
    )
}

fn writing(name: &str, bytes: usize, body: &str) -> String {
    format!(
        "impl ::ethercrab_wire::EtherCrabWireWrite for {name} {{
            fn pack_to_slice_unchecked<'buf>(&self, buf: &'buf mut [u8]) -> &'buf [u8] {{
                let buf = &mut buf[..{bytes}];
                {body}
                buf
            }}
            fn packed_len(&self) -> usize {{ {bytes} }}
        }}
        impl ::ethercrab_wire::EtherCrabWireWriteSized for {name} {{
            fn pack(&self) -> Self::Buffer {{
                let mut buf = [0; {bytes}];
                ::ethercrab_wire::EtherCrabWireWrite::pack_to_slice_unchecked(self, &mut buf);
                buf
            }}
        }}"
    )
}
