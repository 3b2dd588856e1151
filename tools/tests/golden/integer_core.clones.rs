//! Code over `Integer` clones in this crate where it copies, and asks for it.

pub trait Integer: Sized + Num {
    /// Returns the next number.
    fn inc(&mut self)
    where
        Self: Clone,
    {
        *self = successor(self.clone());
    }

    fn is_even(&self) -> bool {
        self.is_multiple_of(&two())
    }

    fn with_next(&self) -> (Self, Self)
    where
        Self: Clone + Signed,
    {
        let mut next = self.clone();
        next.inc();
        (self.clone(), next)
    }

    fn twice(&mut self)
    where
        Self: Clone,
    {
        self.inc();
        self.inc();
    }
}

fn square<T: Integer + Clone>(x: T) -> T {
    product(x.clone(), x)
}

fn low<T: Integer>(x: T, y: T) -> T {
    if is_negative(x) {
        x
    } else {
        y
    }
}

impl<T: Integer + Clone> Row<T> {
    fn doubled(self) -> Row<T> {
        doubled_row(product(self.x.clone(), self.y), self.x)
    }
}

fn native<T: NativeInteger>(x: &T, y: T) -> T {
    product(*x, y * *x)
}
