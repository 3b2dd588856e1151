mod guards;
mod division;
pub mod roots;

pub use division::quotient;
pub use roots::Root;
