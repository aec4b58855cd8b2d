//! Stand-in for nested/bmoc: nothing of it is reached.

pub struct BMOC;

impl BMOC {
    never_called! {
        pub fn to_flat_array(&self) -> Box<[u64]>;
    }
}

pub struct BMOCBuilderUnsafe;

impl BMOCBuilderUnsafe {
    never_called! {
        pub fn new(depth_max: u8, capacity: usize) -> Self;
        pub fn push(&mut self, depth: u8, hash: u64, is_full: bool) -> &mut Self;
        pub fn push_all(&mut self, depth: u8, from: u64, to: u64, is_full: bool) -> &mut Self;
        pub fn to_bmoc(&mut self) -> BMOC;
        pub fn to_bmoc_packing(&mut self) -> BMOC;
        pub fn to_lower_depth_bmoc_packing(&mut self, depth: u8) -> BMOC;
    }
}
