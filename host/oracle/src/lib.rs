//! The originals of docs/src (see build.rs) and [`run`], the calls of them.

// Originals and stand-ins are there whole; the calls reach a small part of them.
#![allow(dead_code, unused_imports, clippy::all)]

/// Functions that an original names and that no call in `run` reaches: it compiles with their
/// signatures alone.
macro_rules! never_called {
    ($($visible:vis fn $name:ident $arguments:tt $(-> $answer:ty)?;)*) => {
        $(
            #[allow(unused_variables)]
            $visible fn $name $arguments $(-> $answer)? {
                unimplemented!()
            }
        )*
    };
}

// Two crates that Debian has no package of. An original names one type of each, in signatures of
// functions that draw.
extern crate self as colorous;
extern crate self as mapproj;

#[derive(Clone, Copy, Debug)]
pub struct Gradient;
pub trait CanonicalProjection {}

// What the original's own lib.rs would hold, with `mod nested`.
include!(concat!(env!("OUT_DIR"), "/tree/lib.rs"));

#[warn(dead_code, unused_imports, clippy::all)]
pub mod run;
