//! The bench of Pugdrel: the static library of the proved decoder beside two independent implementations in Rust.
//!
//! - [`plain`] is documents 01 and 02 in the plainest form; [`fast`] is a decoder for speed, checked against it.
//! - [`pugdrel`] calls the library; [`in_c`] calls what is written in C: a reader and a writer of the recorder's files, and a load.
//! - [`conformance`], [`malformed`], [`timing`], [`times`], [`blocks`], [`load`], [`simulate`] and [`picture`] have the commands of
//!   the program `bench`.

#![deny(unsafe_code)]

pub mod arguments;
pub mod blocks;
pub mod call;
mod calls;
pub mod conformance;
mod damage;
pub mod fast;
#[allow(unsafe_code)]
pub mod in_c;
pub mod load;
mod machine;
pub mod malformed;
pub mod picture;
pub mod plain;
#[allow(unsafe_code)]
pub mod pugdrel;
mod random;
mod recorder;
pub mod simulate;
mod svg;
pub mod times;
pub mod timing;
mod turns;
