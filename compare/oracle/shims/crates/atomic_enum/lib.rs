//! Stands for the crate `atomic_enum`: `#[atomic_enum] enum X { .. }` makes X copyable and adds `AtomicX` over a usize.
//! Frame states are left out of the port, so no answer of the oracle depends on it beyond 'a fresh frame can be claimed once'.

use proc_macro::{TokenStream, TokenTree};

#[proc_macro_attribute]
pub fn atomic_enum(_: TokenStream, item: TokenStream) -> TokenStream {
    let tokens: Vec<TokenTree> = item.clone().into_iter().collect();
    let at = tokens.iter().position(|t| t.to_string() == "enum").expect("an enum");
    let name = tokens[at + 1].to_string();
    let atomic = format!(
        "
        pub struct Atomic{name}(core::sync::atomic::AtomicUsize);

        impl Atomic{name} {{
            /// Only values that were stored from a {name} come back.
            const fn made(v: usize) -> {name} {{ unsafe {{ core::mem::transmute::<usize, {name}>(v) }} }}
            pub const fn new(v: {name}) -> Self {{ Self(core::sync::atomic::AtomicUsize::new(v as usize)) }}
            pub fn load(&self, o: core::sync::atomic::Ordering) -> {name} {{ Self::made(self.0.load(o)) }}
            pub fn store(&self, v: {name}, o: core::sync::atomic::Ordering) {{ self.0.store(v as usize, o) }}
            pub fn compare_exchange(
                &self,
                from: {name},
                to: {name},
                yes: core::sync::atomic::Ordering,
                no: core::sync::atomic::Ordering,
            ) -> Result<{name}, {name}> {{
                let swapped = self.0.compare_exchange(from as usize, to as usize, yes, no);
                swapped.map(Self::made).map_err(Self::made)
            }}
        }}

        impl core::fmt::Debug for Atomic{name} {{
            fn fmt(&self, f: &mut core::fmt::Formatter<'_>) -> core::fmt::Result {{
                self.load(core::sync::atomic::Ordering::SeqCst).fmt(f)
            }}
        }}"
    );
    let mut out: TokenStream = "#[derive(Debug, Clone, Copy)] #[repr(usize)]".parse().unwrap();
    out.extend(item);
    out.extend(atomic.parse::<TokenStream>().unwrap());
    out
}
