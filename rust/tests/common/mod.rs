//! What several tests share. No test needs all of it.
#![allow(unused_macros)]

/// Asserts that each call returns the value.
macro_rules! returns {
    ($($call:expr => $value:expr;)*) => {
        $(assert_eq!($call, $value);)*
    };
}

/// Implements `Num` for a type of one's own, by the operators of the number that its method `number` returns: `$made` makes
/// a value of a number.
macro_rules! implements_num {
    ($name:ident, $number:ident, $made:ident) => {
        implements_num! { $name $made: Add add, Sub sub, Mul mul, Div div, Rem rem }

        impl cellarcove::num_traits::Zero for $name {
            fn zero() -> $name {
                $made(0)
            }

            fn is_zero(&self) -> bool {
                self.number() == 0
            }
        }

        impl cellarcove::num_traits::One for $name {
            fn one() -> $name {
                $made(1)
            }
        }

        impl cellarcove::num_traits::Num for $name {
            type FromStrRadixErr = std::num::ParseIntError;

            fn from_str_radix(text: &str, radix: u32) -> Result<$name, Self::FromStrRadixErr> {
                $number::from_str_radix(text, radix).map($made)
            }
        }
    };
    ($name:ident $made:ident: $($operator:ident $call:ident),*) => {$(
        impl std::ops::$operator for $name {
            type Output = $name;

            fn $call(self, other: $name) -> $name {
                $made(std::ops::$operator::$call(self.number(), other.number()))
            }
        }
    )*};
}
