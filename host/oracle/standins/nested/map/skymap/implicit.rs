//! Stand-in for nested/map/skymap/implicit: nothing of it is reached.

use std::{io::Write, iter::Empty, marker::PhantomData, path::Path, slice::Iter};

use super::{explicit::ExplicitSkyMapBTree, DegradableBySumming, SkyMap, SkyMapValue};
use crate::nested::map::{fits::error::FitsError, mom::impls::zvec::MomVecImpl, HHash};

#[derive(Debug)]
pub struct ImplicitSkyMapArray<H, V> {
    pub depth: u8,
    pub values: Box<[V]>,
    hash_type: PhantomData<H>,
}

impl<H, V> ImplicitSkyMapArray<H, V> {
    never_called! {
        pub fn new(depth: u8, values: Box<[V]>) -> Self;
        pub fn into_explicit_map(self, null_value: V) -> ExplicitSkyMapBTree<H, V>;
        pub fn par_add(self, rhs: Self) -> Self;
    }
}

impl<V> From<ImplicitSkyMapArray<u32, V>> for ImplicitSkyMapArray<u64, V> {
    never_called! {
        fn from(map: ImplicitSkyMapArray<u32, V>) -> Self;
    }
}

impl<H, V> DegradableBySumming for ImplicitSkyMapArray<H, V> {
    type Degraded = Self;
    never_called! {
        fn degrade_sum(self, new_depth: u8) -> Self;
    }
}

impl<'a, H: HHash, V: SkyMapValue + 'a> SkyMap<'a> for ImplicitSkyMapArray<H, V> {
    type HashType = H;
    type ValueType = V;
    type ValuesIt = Iter<'a, V>;
    type EntriesIt = Empty<(H, &'a V)>;
    type OwnedEntriesIt = Empty<(H, V)>;
    never_called! {
        fn depth(&self) -> u8;
        fn is_implicit(&self) -> bool;
        fn len(&self) -> usize;
        fn get(&self, hash: H) -> &V;
        fn values(&'a self) -> Self::ValuesIt;
        fn entries(&'a self) -> Self::EntriesIt;
        fn owned_entries(self) -> Self::OwnedEntriesIt;
    }
}

macro_rules! density_map {
    ($name:ident, $hash:ty) => {
        pub struct $name(ImplicitSkyMapArray<$hash, f64>);

        impl From<ImplicitSkyMapArray<$hash, f64>> for $name {
            never_called! {
                fn from(map: ImplicitSkyMapArray<$hash, f64>) -> Self;
            }
        }

        impl $name {
            pub fn to_fits<W: Write>(&self, _: W) -> Result<(), FitsError> {
                unimplemented!()
            }
            pub fn to_fits_file<P: AsRef<Path>>(&self, _: P) -> Result<(), FitsError> {
                unimplemented!()
            }
        }
    };
}
density_map!(ImplicitDensityMap, u64);
density_map!(ImplicitDensityMapU32, u32);

macro_rules! count_map {
    ($name:ident, $density_map:ident, $hash:ty) => {
        pub struct $name(ImplicitSkyMapArray<$hash, u32>);

        impl From<ImplicitSkyMapArray<$hash, u32>> for $name {
            never_called! {
                fn from(map: ImplicitSkyMapArray<$hash, u32>) -> Self;
            }
        }

        impl $name {
            never_called! {
                pub fn to_dens_map(&self) -> $density_map;
                pub fn to_dens_map_par(&self) -> $density_map;
                pub fn to_upper_count_threshold_mom(&self, t: u32) -> MomVecImpl<$hash, u32>;
                pub fn to_chi2_count_mom(&self, t: f64, m: Option<u8>) -> MomVecImpl<$hash, u32>;
                pub fn to_chi2_dens_mom(&self, t: f64, m: Option<u8>) -> MomVecImpl<$hash, f64>;
            }
            pub fn to_fits<W: Write>(&self, _: W) -> Result<(), FitsError> {
                unimplemented!()
            }
            pub fn to_fits_file<P: AsRef<Path>>(&self, _: P) -> Result<(), FitsError> {
                unimplemented!()
            }
        }
    };
}
count_map!(ImplicitCountMap, ImplicitDensityMap, u64);
count_map!(ImplicitCountMapU32, ImplicitDensityMapU32, u32);
