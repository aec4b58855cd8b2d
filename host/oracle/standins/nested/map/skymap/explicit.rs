//! Stand-in for nested/map/skymap/explicit: nothing of it is reached.

use std::{
    collections::{btree_map::IntoIter, BTreeMap},
    io::Write,
    iter::Empty,
    path::Path,
};

use super::{
    implicit::{ImplicitCountMap, ImplicitCountMapU32, ImplicitSkyMapArray},
    DegradableBySumming, SkyMap, SkyMapValue,
};
use crate::nested::map::{fits::error::FitsError, HHash};

#[derive(Debug)]
pub struct ExplicitSkyMapBTree<H, V> {
    pub entries: BTreeMap<H, V>,
}

impl<H, V> ExplicitSkyMapBTree<H, V> {
    never_called! {
        pub fn new(depth: u8, entries: BTreeMap<H, V>) -> Self;
        pub fn into_implicit_map(self, null_value: V) -> ImplicitSkyMapArray<H, V>;
        pub fn into_u64_hash(self) -> ExplicitSkyMapBTree<u64, V>;
        pub fn par_add(self, rhs: Self) -> Self;
    }
}

impl<H, V> DegradableBySumming for ExplicitSkyMapBTree<H, V> {
    type Degraded = Self;
    never_called! {
        fn degrade_sum(self, new_depth: u8) -> Self;
    }
}

impl<'a, H: HHash, V: SkyMapValue + 'a> SkyMap<'a> for ExplicitSkyMapBTree<H, V> {
    type HashType = H;
    type ValueType = V;
    type ValuesIt = Empty<&'a V>;
    type EntriesIt = Empty<(H, &'a V)>;
    type OwnedEntriesIt = IntoIter<H, V>;
    never_called! {
        fn depth(&self) -> u8;
        fn is_implicit(&self) -> bool;
        fn len(&self) -> usize;
        fn get(&self, hash: H) -> &V;
        fn values(&'a self) -> Self::ValuesIt;
        fn entries(&'a self) -> Self::EntriesIt;
        fn owned_entries(self) -> Self::OwnedEntriesIt;
    }
}

pub struct ExplicitDensityMap<H>(ExplicitSkyMapBTree<H, f64>);

impl<H> From<ExplicitSkyMapBTree<H, f64>> for ExplicitDensityMap<H> {
    never_called! {
        fn from(map: ExplicitSkyMapBTree<H, f64>) -> Self;
    }
}

impl<H> ExplicitDensityMap<H> {
    pub fn to_fits<W: Write>(&self, _: W) -> Result<(), FitsError> {
        unimplemented!()
    }
    pub fn to_fits_file<P: AsRef<Path>>(&self, _: P) -> Result<(), FitsError> {
        unimplemented!()
    }
}

pub struct ExplicitCountMap<H>(ExplicitSkyMapBTree<H, u32>);

impl<H> From<ExplicitSkyMapBTree<H, u32>> for ExplicitCountMap<H> {
    never_called! {
        fn from(map: ExplicitSkyMapBTree<H, u32>) -> Self;
    }
}

impl<H> ExplicitCountMap<H> {
    never_called! {
        pub fn to_dens_map(&self) -> ExplicitDensityMap<H>;
        pub fn to_dens_map_par(&self) -> ExplicitDensityMap<H>;
    }
    pub fn to_fits<W: Write>(&self, _: W) -> Result<(), FitsError> {
        unimplemented!()
    }
    pub fn to_fits_file<P: AsRef<Path>>(&self, _: P) -> Result<(), FitsError> {
        unimplemented!()
    }
}

impl ExplicitCountMap<u64> {
    never_called! {
        pub fn into_implicit_skymap(self, null_value: u32) -> ImplicitCountMap;
    }
}

impl ExplicitCountMap<u32> {
    never_called! {
        pub fn into_implicit_skymap(self, null_value: u32) -> ImplicitCountMapU32;
    }
}
