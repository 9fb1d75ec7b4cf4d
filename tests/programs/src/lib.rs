//! Whole programs on the chip, through the C interface, and on two peers: sim65, and VICE's 6510 core in the same
//! process.

pub mod chip;
pub mod executable;
pub mod image;
pub mod registers;
pub mod services;
pub mod sim65;
#[cfg(feature = "vice")]
pub mod vice;
