use crate::sink::{Console, Sink};
