//! Stand-in for nested/map. Reached as a bound of the zuniq types is HHash, and nothing in it.

pub mod fits;
pub mod img;
pub mod mom;
pub mod skymap;

pub trait HHash: Copy {
    const FITS_TFORM: &'static str;
}
impl HHash for u32 {
    const FITS_TFORM: &'static str = "J";
}
impl HHash for u64 {
    const FITS_TFORM: &'static str = "K";
}
