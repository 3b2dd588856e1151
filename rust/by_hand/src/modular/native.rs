//! What the compiler does not say of a type that is not built in.

#[cfg_attr(has_do_not_recommend, diagnostic::do_not_recommend)]
impl<T: NativeInteger> Modular for T {}
