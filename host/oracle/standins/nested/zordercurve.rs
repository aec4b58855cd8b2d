//! Stand-in for nested/zordercurve. The four names of ZOC are reached, in the original's table of
//! layers; nothing looks at them.

#[derive(Clone, Copy)]
pub enum ZOC {
    EMPTY,
    SMALL,
    MEDIUM,
    LARGE,
}

pub trait ZOrderCurve {
    fn ij2h(&self, i: u32, j: u32) -> u64;
    fn h2ij(&self, h: u64) -> u64;
    fn ij2i(&self, ij: u64) -> u32;
    fn ij2j(&self, ij: u64) -> u32;
    fn i02h(&self, i: u32) -> u64;
    fn oj2h(&self, j: u32) -> u64;
}

impl ZOrderCurve for ZOC {
    never_called! {
        fn ij2h(&self, i: u32, j: u32) -> u64;
        fn h2ij(&self, h: u64) -> u64;
        fn ij2i(&self, ij: u64) -> u32;
        fn ij2j(&self, ij: u64) -> u32;
        fn i02h(&self, i: u32) -> u64;
        fn oj2h(&self, j: u32) -> u64;
    }
}

never_called! {
    pub fn get_zoc(depth: u8) -> &'static ZOC;
}
