//! Stand-in for external_edge: nothing of it is reached.

use super::compass_point::{Cardinal, Ordinal};

pub struct ExternalEdge;

impl ExternalEdge {
    never_called! {
        pub fn new_empty() -> Self;
        pub fn set_corner(&mut self, corner: &Cardinal, hash: u64);
        pub fn set_edge(&mut self, edge: &Ordinal, hashes: Box<[u64]>);
    }
}
