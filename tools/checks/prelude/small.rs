/// From -7 to 7.
#[derive(Debug)]
struct SmallRange;

impl crate::Range for SmallRange {
    const LOW: i64 = -7;
    const HIGH: i64 = 7;
}

impl crate::SignedRange for SmallRange {}

type Small = crate::Bounded<SmallRange>;
