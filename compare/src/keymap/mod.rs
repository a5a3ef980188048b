//! The comparison of the port's key map with the original's, and what belongs to it.

#[cfg(feature = "map-port")]
pub mod bench;
#[cfg(feature = "map-port")]
mod cases;
#[cfg(feature = "map-port")]
mod classes;
#[cfg(feature = "map-port")]
pub mod compare;
mod original;
#[cfg(feature = "map-port")]
mod port;
mod record;
pub mod sample;
#[cfg(feature = "map-port")]
mod stored;
pub mod table;
