/// A type that has its own `Integer`, so that the defaults of the traits run.
#[derive(Debug, Clone, Copy, PartialEq, Eq, PartialOrd, Ord)]
struct Own(i64);

macro_rules! operators {
    ($($name:ident $call:ident)*) => {$(
        impl std::ops::$name for Own {
            type Output = Own;

            fn $call(self, other: Own) -> Own {
                Own(std::ops::$name::$call(self.0, other.0))
            }
        }
    )*};
}
operators!(Add add Sub sub Mul mul Div div Rem rem);

impl num_traits::Zero for Own {
    fn zero() -> Own {
        Own(0)
    }

    fn is_zero(&self) -> bool {
        self.0 == 0
    }
}

impl num_traits::One for Own {
    fn one() -> Own {
        Own(1)
    }
}

impl num_traits::Num for Own {
    type FromStrRadixErr = ();

    fn from_str_radix(_: &str, _: u32) -> Result<Own, ()> {
        Err(())
    }
}

impl Integer for Own {
    fn div_rem(&self, other: &Own) -> (Own, Own) {
        (*self / *other, *self % *other)
    }

    fn div_floor(&self, other: &Own) -> Own {
        Own(Integer::div_floor(&self.0, &other.0))
    }

    fn mod_floor(&self, other: &Own) -> Own {
        Own(Integer::mod_floor(&self.0, &other.0))
    }

    fn is_multiple_of(&self, other: &Own) -> bool {
        Integer::is_multiple_of(&self.0, &other.0)
    }

    fn is_even(&self) -> bool {
        self.0 % 2 == 0
    }

    fn is_odd(&self) -> bool {
        self.0 % 2 != 0
    }

    fn gcd(&self, other: &Own) -> Own {
        Own(Integer::gcd(&self.0, &other.0))
    }

    fn lcm(&self, other: &Own) -> Own {
        Own(Integer::lcm(&self.0, &other.0))
    }
}
