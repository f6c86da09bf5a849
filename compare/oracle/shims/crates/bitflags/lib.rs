//! Stands for the crate `bitflags` 2: a set of flags over an integer. `from_bits` refuses undefined bits, as that crate's documentation says.

#[macro_export]
macro_rules! bitflags {
    ($(#[$of_struct:meta])* $vis:vis struct $name:ident: $bits:ty {
        $($(#[$of_flag:meta])* const $flag:ident = $value:expr;)*
    }) => {
        $(#[$of_struct])*
        $vis struct $name($bits);

        impl $name {
            $($(#[$of_flag])* pub const $flag: Self = Self($value);)*

            pub const fn all() -> Self {
                Self(0 $(| $value)*)
            }

            pub const fn bits(&self) -> $bits {
                self.0
            }

            pub const fn from_bits(bits: $bits) -> Option<Self> {
                if bits & !Self::all().0 == 0 { Some(Self(bits)) } else { None }
            }

            pub const fn is_empty(&self) -> bool {
                self.0 == 0
            }
        }
    };
}
