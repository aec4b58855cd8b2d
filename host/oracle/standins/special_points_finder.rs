//! Stand-in for special_points_finder: nothing of it is reached.

use super::sph_geom::coo3d::{Coo3D, LonLat};

never_called! {
    pub fn arc_special_points(from: &Coo3D, to: &Coo3D, eps: f64, n: u8) -> Box<[LonLat]>;
}
