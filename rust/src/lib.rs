//! A vector that many threads append to and read through a `&`. Elements never move.
//!
//! [`Vec`] has the interface of `boxcar`'s, with a limit. What appends and reads is a library written in Rattle, whose contracts
//! are machine-checked. A value of up to 64 bytes and alignment 8 lies in the vector itself, in words of 8 bytes; every other one
//! lies in a box. Each thread finds its own hand of a vector, and gives it back when it ends.
//!
//! ```
//! let numbers = kehldora::Vec::new(1000);
//! std::thread::scope(|scope| {
//!     for i in 0..4 {
//!         let numbers = &numbers;
//!         scope.spawn(move || numbers.push(i));
//!     }
//! });
//! assert_eq!(numbers.iter().map(|(_, number)| number).sum::<i32>(), 6);
//! ```
#![warn(missing_docs)]

mod hub;
mod raw;
mod vec;

pub use vec::{IntoIter, Iter, Reason, Refused, Vec};

/// The greatest limit.
pub const MOST_PLACES: usize = raw::MOST_PLACES as usize;
