//! The cases that the proved code and the second evaluator are compared on, and
//! those of the program `messages`.

pub mod calls;
pub mod cases;
pub mod checks;
pub mod lent;
pub mod messages;
pub mod timing;
pub mod vectors;
