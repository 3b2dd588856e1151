// What the library of Rattle has otherwise than that of Rust.

/// The memory that a call is given.
#[derive(Clone, Copy)]
struct Global;

#[derive(Debug)]
struct AllocError;

type Args = std::vec::IntoIter<String>;

trait CollectWith: Iterator + Sized {
    fn collect_with<C: FromIterator<Self::Item>>(self, _: Global) -> Result<C, AllocError> {
        Ok(self.collect())
    }
}

impl<I: Iterator> CollectWith for I {}
