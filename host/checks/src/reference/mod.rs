//! A second implementation of the planner, the judge, the latest-time habit, the writer, the count, carrying on and the hall planner, written from the specification sentence by sentence, and what the optimum's call
//! promises. It is slow and plain, and it uses no code of any other part of the repository.

pub mod brute;
pub mod calls;
pub mod carry;
pub mod form;
pub mod hall;
pub mod latest;
pub mod lines;
pub mod model;
pub mod optimum;
pub mod texts;
pub mod walk;

pub use calls::{count, judge, plan, Counted, Reply};
pub use carry::carry;
pub use form::write;
pub use hall::hall;
pub use latest::latest;
pub use optimum::optimum;
