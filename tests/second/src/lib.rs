//! A second reading of document 01. It shares nothing with the house that is proved: another language, another model (queues as lists,
//! money in 128 bits), another way to the largest allowed set. The two are compared byte by byte.
#![deny(warnings)]
#![forbid(unsafe_code)]

// What document 01 says.
pub mod calls;
pub mod dayfile;
pub mod house;
pub mod largest;
pub mod sheet;
pub mod tables;

// Day files made up from a seed.
pub mod damage;
pub mod draft;
pub mod limits;
pub mod nights;
pub mod openings;
pub mod random;

// Checks.
pub mod bytetest;
pub mod selftest;
