#[track_caller]
pub(crate) fn check(condition: bool) {}
