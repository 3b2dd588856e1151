extern crate core;
extern crate num_integer;
extern crate num_traits as traits;

use num_integer::*;
