// Stand-in for lib.rs of the original: what nested/mod.rs takes from it.
//
// Reached by the calls are DEPTH_MAX, nside_unsafe, n_hash_unsafe and check_depth. So the numbers
// in the table behind the original's `n_hash` are ours, and so is the panic of its free `to_zuniq`
// at a depth over 29; the shifts that encode and decode are the original's.

mod compass_point;
mod external_edge;
pub mod nested;
mod ring;
mod special_points_finder;
mod sph_geom;

use compass_point::MainWind;

pub const DEPTH_MAX: u8 = 29;

pub const fn nside_unsafe(depth: u8) -> u32 {
    1 << depth
}

pub const fn n_hash_unsafe(depth: u8) -> u64 {
    12 << (depth << 1)
}

pub fn check_depth(depth: u8) {
    assert!(depth <= DEPTH_MAX, "Expected depth in [0, 29]");
}

// From here on nothing is reached.

const HALF_PI: f64 = std::f64::consts::FRAC_PI_2;
const TWICE_PI: f64 = 2.0 * std::f64::consts::PI;
const F64_SIGN_BIT_MASK: u64 = 1 << 63;

const fn div4_quotient(x: u8) -> u8 {
    x >> 2
}
const fn div4_remainder(x: u8) -> u8 {
    x & 3
}
fn div2_quotient<T: std::ops::Shr<u8, Output = T>>(x: T) -> T {
    x >> 1
}

never_called! {
    fn div2_remainder(x: u64) -> u64;
    fn pow2(x: f64) -> f64;
    fn d0h_lh_in_d0c(lon: f64, lat: f64) -> (u8, f64, f64);
    fn check_lat_res(lat: f64) -> Result<(), String>;
    fn unproj(x: f64, y: f64) -> (f64, f64);
    fn ensures_x_is_positive(x: f64) -> f64;
    fn base_cell(i: u8, j: u8) -> u8;
    fn iden(d0h: u8) -> u8;
    fn next(d0h: u8) -> u8;
    fn prev(d0h: u8) -> u8;
    fn oppo(d0h: u8) -> u8;
    fn has_best_starting_depth(d: f64) -> bool;
    fn best_starting_depth(d: f64) -> u8;
    fn to_squared_half_segment(d: f64) -> f64;
    fn squared_half_segment(dlon: f64, dlat: f64, cos_lat1: f64, cos_lat2: f64) -> f64;
    fn largest_center_to_vertex_distance_with_radius(depth: u8, lon: f64, lat: f64, r: f64) -> f64;
    fn largest_center_to_vertex_distances_with_radius(
        from: u8, to: u8, lon: f64, lat: f64, r: f64
    ) -> Box<[f64]>;
    fn direction_from_neighbour(d0h: u8, direction: &MainWind) -> MainWind;
    fn edge_cell_direction_from_neighbour(
        d0h: u8, inner: &MainWind, direction: &MainWind
    ) -> MainWind;
}
