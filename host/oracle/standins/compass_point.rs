//! Stand-in for compass_point: nothing of it is reached.

use std::marker::PhantomData;

#[derive(Clone, Copy, Debug, PartialEq, Eq)]
pub enum MainWind {
    S,
    SE,
    E,
    SW,
    C,
    NE,
    W,
    NW,
    N,
}

impl MainWind {
    never_called! {
        pub fn from_index(i: u8) -> Self;
        pub fn from_offsets(se: i8, sw: i8) -> Self;
        pub fn offset_se(&self) -> i8;
        pub fn offset_sw(&self) -> i8;
        pub fn opposite(&self) -> Self;
        pub fn is_cardinal(&self) -> bool;
        pub fn is_ordinal(&self) -> bool;
        pub fn to_cardinal(&self) -> Cardinal;
        pub fn to_ordinal(&self) -> Ordinal;
    }
}

#[derive(Clone, Copy, Debug, PartialEq, Eq)]
pub enum Cardinal {
    S,
    E,
    N,
    W,
}

impl Cardinal {
    never_called! {
        pub fn offset_we(&self, offset: f64) -> f64;
        pub fn offset_sn(&self, offset: f64) -> f64;
        pub fn clockwise_cycle(&self) -> (Cardinal, Cardinal, Cardinal, Cardinal);
        pub fn counter_clockwise_cycle(&self) -> (Cardinal, Cardinal, Cardinal, Cardinal);
    }
}

#[derive(Clone, Copy, Debug, PartialEq, Eq)]
pub enum Ordinal {
    SE,
    SW,
    NE,
    NW,
}

pub struct CardinalSet;

impl IntoIterator for CardinalSet {
    type Item = Cardinal;
    type IntoIter = std::iter::Empty<Cardinal>;
    never_called! {
        fn into_iter(self) -> Self::IntoIter;
    }
}

pub struct CardinalMap<V>(PhantomData<V>);

impl<V> CardinalMap<V> {
    never_called! {
        pub fn new() -> Self;
        pub fn put(&mut self, key: Cardinal, value: V);
    }
}

pub struct MainWindMap<V>(PhantomData<V>);

impl<V> MainWindMap<V> {
    never_called! {
        pub fn new() -> Self;
        pub fn put(&mut self, key: MainWind, value: V);
        pub fn put_opt(&mut self, key: MainWind, value: Option<V>);
        pub fn get(&self, key: MainWind) -> Option<&V>;
        pub fn values_vec(&self) -> Vec<V>;
        pub fn sorted_values(&self) -> Box<[V]>;
        pub fn sorted_values_vec(&self) -> Vec<V>;
        pub fn entries_vec(&self) -> Vec<(MainWind, V)>;
        pub fn sorted_entries_vec(&self) -> Vec<(MainWind, V)>;
    }
}
