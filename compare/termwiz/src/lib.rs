//! The original's `input`, `keymap` and `readbuf`, unchanged, and stand-ins for the modules of its
//! crate that they lean on.

pub mod error;
pub mod escape;

include!(concat!(env!("OUT_DIR"), "/original.rs"));
