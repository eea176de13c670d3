//! Exact low-discrepancy points of a plan, and how many of them are inside a window: safe Rust over the two C calls of `libhisowake.a`.
//!
//! A [`Plan`] is made of bytes or of words. It gives the [`Point`] of any index and the [`Points`] of a run, and counts the points of a run
//! inside a window of [`Cut`]s. A call that is turned down answers a [`Refusal`]; a text that is no plan, a [`ParseError`].
//!
//! ```
//! use hisowake::{Cut, Plan, Refusal};
//!
//! let plan = Plan::read(&[0x10, 0x08, 0x10])?; // Halton, bases 2 and 3
//! assert_eq!(Ok(plan), "halton 2 3".parse());
//! assert_eq!(*plan.point(1)?, [2147483648, 3486784401]); // 1/2 of 2^32, 1/3 of 3^21
//!
//! let count = plan.count(0, 6, &[Cut::new(1, 2), Cut::new(1, 3)])?;
//! assert_eq!((count.inside, count.bound), (1, 20));
//!
//! assert_eq!(plan.point(1 << 32), Err(Refusal::OutOfRange));
//! # Ok::<(), Refusal>(())
//! ```
//!
//! # A plan's bytes
//!
//! Fields of bits, most significant first, without gaps. Zero bits fill the last byte, and nothing follows it; 71 bytes are the most.
//!
//! | Field | Bits | Holds |
//! |---|---|---|
//! | family | 2 | 0 Halton, 1 permuted Halton (Faure's permutations), 2 Sobol, 3 Halton with the permutations of Kocis and Whiten |
//! | axes | 3 | how many axes follow, 1 to 6 |
//! | a Halton axis | 8 | base minus 1; bases are 2 to 256, and no two share a factor |
//! | a Sobol axis | 4 | the degree d, 0 to 12; at 0, the plain binary axis, nothing follows |
//! | | d - 1 | a_1 to a_(d-1) of the polynomial x^d + a_1 x^(d-1) + .. + a_(d-1) x + 1, a bit each; it is primitive, and no axis has that of another |
//! | | 1, 2, .. d | m_1 to m_d, m_i in i bits and odd |
//!
//! One plan of each family, as words, field by field, and as bytes:
//!
//! ```text
//! halton 2 3         00 010 00000001 00000010 000           = 10 08 10
//! permuted 4 9 25    01 011 00000011 00001000 00011000 000  = 58 18 40 C0
//! sobol 0 11:1,3,7   10 010 0000 0011 01 1 11 111 000       = 90 1B F8
//! kocis 227 229      11 010 11100010 11100100 000           = D7 17 20
//! ```
//!
//! In words a plan is its family and a word for each axis: a base, or for Sobol `0`, the plain binary axis, or the polynomial as a number, a
//! colon and the m's. x^3 + x + 1 is 8 + 2 + 1, so 11; its a_1 and a_2 are 0 and 1.
//!
//! ```
//! use hisowake::{Plan, Refusal};
//!
//! assert_eq!(Plan::read(&[0b00_010_000, 0b00001_000, 0b00010_000])?.to_string(), "halton 2 3");
//! assert_eq!(Plan::read(&[0b01_011_000, 0b00011_000, 0b01000_000, 0b11000_000])?.to_string(), "permuted 4 9 25");
//! assert_eq!(Plan::read(&[0b10_010_000, 0b0_0011_01_1, 0b11_111_000])?.to_string(), "sobol 0 11:1,3,7");
//! assert_eq!(Plan::read(&[0b11_010_111, 0b00010_111, 0b00100_000])?.to_string(), "kocis 227 229");
//! # Ok::<(), Refusal>(())
//! ```
//!
//! # What it needs
//!
//! `#![no_std]`: it uses `core` alone, and nothing allocates. It is meant for Rust 1.63 and later; [`Refusal`] and [`ParseError`] are
//! `core::error::Error` from Rust 1.81 on, which first has it. The archive is for x86-64. It is that of the folder that the environment variable
//! `HISOWAKE_LIB_DIR` names, which starts at this crate's folder if it is relative, or else of the repository's `dist`.
#![no_std]
#![deny(missing_docs, unsafe_code)]
#![warn(clippy::missing_errors_doc, clippy::must_use_candidate)]

#[cfg(test)]
extern crate std;

mod bits;
pub mod calls;
mod error;
mod plan;
mod point;
mod refusal;
mod window;
mod words;

pub use error::{Expected, ParseError};
pub use plan::{Family, Plan, AXES_MAX, PLAN_MAX};
pub use point::{Point, Points};
pub use refusal::Refusal;
pub use window::{Count, Cut};
