//! What a datagram costs, as tight as it gets: decode, encode and the updates that wait to be sent, in Rust by hand for speed,
//! of which nothing is proved. Received bytes are read where they lie, nothing is cleared before it is written, and indexes
//! that cannot be out of range are not tested. It answers what the other sides answer: each case compares them before it is
//! timed.

mod buffer;
#[cfg(test)]
mod tests;
mod wire;
pub mod work;
