//! Stand-in for sph_geom: nothing of it is reached.

use coo3d::{Coo3D, LonLat};

pub enum ContainsSouthPoleMethod {
    Default,
    ControlPointIn(Coo3D),
}

pub struct Polygon;

impl Polygon {
    never_called! {
        pub fn new_custom(vertices: Box<[LonLat]>, method: &ContainsSouthPoleMethod) -> Self;
        pub fn vertices(&self) -> &[Coo3D];
        pub fn contains(&self, position: &Coo3D) -> bool;
        pub fn is_intersecting_great_circle_arc(&self, from: &Coo3D, to: &Coo3D) -> bool;
    }
}

pub mod coo3d {
    pub trait LonLatT {
        fn lon(&self) -> f64;
        fn lat(&self) -> f64;
    }

    pub struct LonLat {
        pub lon: f64,
        pub lat: f64,
    }

    impl LonLatT for LonLat {
        never_called! {
            fn lon(&self) -> f64;
            fn lat(&self) -> f64;
        }
    }

    pub struct Coo3D;

    impl Coo3D {
        never_called! {
            pub fn from_sph_coo(lon: f64, lat: f64) -> Self;
        }
    }

    impl LonLatT for Coo3D {
        never_called! {
            fn lon(&self) -> f64;
            fn lat(&self) -> f64;
        }
    }

    pub struct UnitVect3;

    impl UnitVect3 {
        never_called! {
            pub fn lonlat(&self) -> LonLat;
        }
    }
}

pub mod cone {
    use super::coo3d::{Coo3D, UnitVect3};

    pub struct Cone;

    impl Cone {
        never_called! {
            pub fn bounding_cone(positions: &[Coo3D]) -> Self;
            pub fn radius(&self) -> f64;
            pub fn center(&self) -> UnitVect3;
        }
    }
}

pub mod elliptical_cone {
    pub struct EllipticalCone;

    impl EllipticalCone {
        never_called! {
            pub fn new(lon: f64, lat: f64, a: f64, b: f64, pa: f64) -> Self;
            pub fn contains(&self, lon: f64, lat: f64) -> bool;
            pub fn overlap_cone(&self, lon: f64, lat: f64, r: f64) -> bool;
            pub fn contains_cone(&self, lon: f64, lat: f64, r: f64) -> bool;
        }
    }
}

pub mod frame {
    pub struct RefToLocalRotMatrix;

    impl RefToLocalRotMatrix {
        never_called! {
            pub fn from_center(lon: f64, lat: f64) -> Self;
            pub fn to_global_coo(&self, x: f64, y: f64, z: f64) -> (f64, f64);
        }
    }
}

pub mod zone {
    use super::cone::Cone;

    pub struct Zone;

    impl Zone {
        never_called! {
            pub fn new(lon_min: f64, lat_min: f64, lon_max: f64, lat_max: f64) -> Self;
            pub fn smallest_enclosing_cone(&self) -> Option<Cone>;
            pub fn dlon(&self) -> f64;
            pub fn dlat(&self) -> f64;
            pub fn contains(&self, lon: f64, lat: f64) -> bool;
            pub fn contains_exclusive(&self, lon: f64, lat: f64) -> bool;
            pub fn is_lon_range_compatible(&self, west: f64, east: f64) -> bool;
            pub fn crossed_vertically(&self, lon: f64, south: f64, north: f64) -> bool;
            pub fn crossed_horizontally(&self, west: f64, east: f64, lat: f64) -> bool;
            pub fn vertices(&self) -> [(f64, f64); 4];
        }
    }
}
