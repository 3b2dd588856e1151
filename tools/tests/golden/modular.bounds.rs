//! Above `integer_core` what copies asks for `Copy`, and a struct has no bounds.

use crate::integer_core::Integer;

pub trait Doubled: Integer + Copy {
    #[must_use]
    fn twice(&self) -> Self {
        sum(*self, *self)
    }
}

struct Pair<T> {
    x: T,
}

impl<T: Integer + Copy> Pair<T> {
    fn square(&self) -> T {
        product(self.x, self.x)
    }
}

fn pages<T: Integer>(x: T, y: T) -> T {
    div_ceil(x, y)
}

fn native<T: Integer + PrimInt>(x: T) -> T {
    sum(x, x)
}
