//! What the tests share.

pub mod cards;
pub mod cuts;
pub mod kept;
pub mod lying;

pub use testkit::random;
