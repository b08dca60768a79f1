//! Trees that the calls make and that lean as far as they can (#113): at every node each side weighs at most 3 times the other, so no
//! walk of them has more than 49 items pending, and no call answers TOO_DEEP. Trees with as many pending as any are made too.

mod asked;
mod climbed;
mod shapes;
mod worst;

use super::{Compared, Effort};

pub fn all(effort: Effort) -> Compared {
    Ok(worst::all()? + effort.each(60, climbed::history)?)
}
