
#[cfg(test)]
mod wrong_lines {
#[allow(unused_imports)]
use super::*;
{preludes}
{tests}
}
