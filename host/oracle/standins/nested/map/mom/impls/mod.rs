//! Stand-in for nested/map/mom/impls: it only declares the two originals.

pub mod bslice;
pub mod zvec;
