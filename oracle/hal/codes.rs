//! Value enums as ch32_metapac has them: one variant for each code, in the order of the codes.

#[macro_export]
macro_rules! codes {
    ($name:ident: $($code:ident)*) => {
        #[allow(non_camel_case_types)]
        #[derive(Clone, Copy, Debug, Eq, PartialEq)]
        #[repr(u8)]
        pub enum $name { $($code),* }

        impl $name {
            const ALL: &'static [$name] = &[$($name::$code),*];

            pub fn from_bits(code: u8) -> $name {
                Self::ALL[code as usize]
            }

            pub fn to_bits(self) -> u8 {
                self as u8
            }
        }
    };
}
