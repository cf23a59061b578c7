//! The message unit of a bus sign, written a second time from the rules alone.
//! Answers to 01 as a whole, one module per layer: the wire, the program, the machine, the sign.
//!
//! Whatever 01 and 000 leave open was decided here on its own, point by point in READINGS.md.

#![forbid(unsafe_code)]

pub mod calls;
pub mod completed;
pub mod image;
pub mod machine;
pub mod no;
pub mod packet;
pub mod program;
pub mod sign;
