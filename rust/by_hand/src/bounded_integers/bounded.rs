//! What a range has in plain Rust alone.

/// Marks an integer with its range. It doesn't compile at a range of another shape than the three of [`Range`].
fn lawful<R: Range>() -> PhantomData<R> {
    let () = Shape::<R>::IS_LAWFUL;
    PhantomData
}

struct Shape<R>(PhantomData<R>);

impl<R: Range> Shape<R> {
    const IS_LAWFUL: () = assert!(
        R::HIGH > 0 && (R::LOW == 0 || R::LOW == -R::HIGH || (R::LOW == -R::HIGH - 1 && R::LOW > i64::MIN)),
        "a range is from 0, -HIGH or -HIGH - 1 to HIGH, which is positive"
    );
}
