//! Stand-in for bitflags: a number with named values, enough for the interaction groups, which no
//! ported step looks at.

#[macro_export]
macro_rules! bitflags {
    ($(#[$of:meta])* pub struct $name:ident: $number:ty { $($(#[$on:meta])* const $flag:ident = $value:expr;)* }) => {
        $(#[$of])*
        pub struct $name($number);

        #[allow(missing_docs)]
        impl $name {
            $($(#[$on])* pub const $flag: $name = $name($value);)*

            pub const fn bits(&self) -> $number {
                self.0
            }

            pub const fn from_bits_retain(bits: $number) -> Self {
                $name(bits)
            }
        }
    };
}
