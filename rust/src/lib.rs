//! Document 01 with requests 01, 02 and 05 of document 02 in plain Rust
//! ([`plain`]), the proved library behind a safe wrapper (`ffi`, or `bridge` on
//! a processor that the library is not compiled for), and what the programs of
//! this package share: the calls ([`interface`]) and the numbers they return
//! ([`told`]), cases as text ([`cases`]), generated cases ([`generate`]), lent
//! memory with guards ([`lent`]).

#[cfg(bridged)]
pub mod bridge;
pub mod cases;
#[cfg(linked)]
pub mod ffi;
pub mod generate;
pub mod interface;
pub mod lent;
pub mod plain;
pub mod random;
pub mod told;

#[cfg(bridged)]
pub use bridge::library;
#[cfg(linked)]
pub use ffi::{Library, library};
