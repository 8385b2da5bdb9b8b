//! What library and program are checked and measured by: an independent reference implementation, and the library's algorithms in Rust to compare speeds with.

pub mod compared;
pub mod fast;
pub mod reference;
