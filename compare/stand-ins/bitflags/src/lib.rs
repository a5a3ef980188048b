//! Stands in for the crate `bitflags`: a struct that holds a set of named bits.

#[macro_export]
macro_rules! bitflags {
    (
        $(#[$attribute:meta])*
        pub struct $name:ident: $bits:ty {
            $($(#[$note:meta])* const $flag:ident = $value:expr;)*
        }
    ) => {
        $(#[$attribute])*
        pub struct $name($bits);

        impl $name {
            $($(#[$note])* pub const $flag: Self = Self($value);)*

            pub const fn all() -> Self {
                Self(0 $(| $value)*)
            }

            pub const fn from_bits_truncate(bits: $bits) -> Self {
                Self(bits & Self::all().0)
            }

            pub const fn bits(&self) -> $bits {
                self.0
            }

            pub const fn is_empty(&self) -> bool {
                self.0 == 0
            }

            pub const fn contains(&self, other: Self) -> bool {
                self.0 & other.0 == other.0
            }
        }

        impl ::std::ops::BitOr for $name {
            type Output = Self;

            fn bitor(self, other: Self) -> Self {
                Self(self.0 | other.0)
            }
        }

        impl ::std::ops::BitAnd for $name {
            type Output = Self;

            fn bitand(self, other: Self) -> Self {
                Self(self.0 & other.0)
            }
        }

        impl ::std::ops::Not for $name {
            type Output = Self;

            fn not(self) -> Self {
                Self::from_bits_truncate(!self.0)
            }
        }
    };
}
