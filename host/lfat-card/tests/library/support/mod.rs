//! What the tests of the library share among themselves; `testkit` has what others use too.

pub mod coverage;
pub mod fresh;
pub mod image;
pub mod twin;
