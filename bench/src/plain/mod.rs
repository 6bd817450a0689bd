//! The same work in plain Rust, which the proved crates are measured against: std only, sorted arrays with stored counts,
//! straight loops, nothing from the heap but the journals. It has the parts of a member that the cases
//! need, with the same rules.

pub mod buckets;
pub mod buffer;
pub mod list;
pub mod member;
pub mod node;
pub mod shared;
pub mod table;
pub mod wire;
pub mod work;
