//! The comparison of the port's built-in table with the original's, and what belongs to it.

#[cfg(feature = "table-port")]
pub mod compare;
mod filled;
mod original;
#[cfg(feature = "table-port")]
mod port;
mod rules;
pub mod sample;
