//! Rows of any bytes. The original drops a short last row, which ours refuses, so that bytes to be
//! read are whole rows here.

use std::{fmt::Debug, marker::PhantomData};

use mom::{rows, Refusal};
use oracle::run;

use crate::{
    compare::Kind,
    random::Random,
    widths::{named, Width},
};

/// What stands behind the zuniq in a row.
pub trait Value<Z = u64>: Copy + Debug + Default + Ord + Send + Sync {
    const ROW: usize;
    const READ: &'static str;
    const WRITE: &'static str;

    fn of_bits(bits: u64) -> Self;
    fn read(bytes: &[u8], zuniqs: &mut [Z], values: &mut [Self]) -> Result<usize, Refusal>;
    fn write(zuniqs: &[Z], values: &[Self], bytes: &mut [u8]) -> Result<usize, Refusal>;
    fn original_read(bytes: &[u8]) -> Vec<(Z, Self)>;
    fn original_write(entries: Vec<(Z, Self)>) -> (Vec<u8>, usize);
}

impl<Z: Width> Value<Z> for u32 {
    const ROW: usize = Z::OURS.count_row;
    const READ: &'static str = named::<Z>("read_count_rows", "narrow_read_count_rows");
    const WRITE: &'static str = named::<Z>("write_count_rows", "narrow_write_count_rows");

    fn of_bits(bits: u64) -> u32 {
        bits as u32
    }

    fn read(bytes: &[u8], zuniqs: &mut [Z], values: &mut [u32]) -> Result<usize, Refusal> {
        (Z::OURS.read_count_rows)(bytes, zuniqs, values)
    }

    fn write(zuniqs: &[Z], values: &[u32], bytes: &mut [u8]) -> Result<usize, Refusal> {
        (Z::OURS.write_count_rows)(zuniqs, values, bytes)
    }

    fn original_read(bytes: &[u8]) -> Vec<(Z, u32)> {
        run::read_rows(bytes)
    }

    fn original_write(entries: Vec<(Z, u32)>) -> (Vec<u8>, usize) {
        run::write_rows(entries)
    }
}

/// The pattern of a density.
impl Value for u64 {
    const ROW: usize = rows::DENSITY_ROW;
    const READ: &'static str = "read_density_rows";
    const WRITE: &'static str = "write_density_rows";

    fn of_bits(bits: u64) -> u64 {
        bits
    }

    fn read(bytes: &[u8], zuniqs: &mut [u64], values: &mut [u64]) -> Result<usize, Refusal> {
        rows::read_density_rows(bytes, zuniqs, values)
    }

    fn write(zuniqs: &[u64], values: &[u64], bytes: &mut [u8]) -> Result<usize, Refusal> {
        rows::write_density_rows(zuniqs, values, bytes)
    }

    fn original_read(bytes: &[u8]) -> Vec<(u64, u64)> {
        let entries: Vec<(u64, f64)> = run::read_rows(bytes);
        entries.iter().map(|(z, x)| (*z, x.to_bits())).collect()
    }

    fn original_write(entries: Vec<(u64, u64)>) -> (Vec<u8>, usize) {
        let entries = entries.iter().map(|(z, p)| (*z, f64::from_bits(*p)));
        run::write_rows(entries.collect())
    }
}

/// Any number of bits, now and then all ones above them: so NaNs, infinities and zeros are frequent.
fn any_bits(random: &mut Random) -> u64 {
    let ones = match random.below(8) {
        0 => 0x7ff0_0000_0000_0000,
        1 => 0xfff0_0000_0000_0000,
        _ => 0,
    };
    ones | random.bits() >> random.below(64)
}

const MOST_ROWS: u64 = 40;

pub struct Read<V, Z = u64>(PhantomData<(V, Z)>);

impl<V: Value<Z>, Z: Width> Kind for Read<V, Z> {
    const NAME: &'static str = V::READ;
    type Input = Vec<u8>;
    /// The entries, and how many they are.
    type Answer = Result<(Vec<(Z, V)>, usize), Refusal>;

    /// One row in which one byte isn't 0.
    fn small() -> impl Iterator<Item = Vec<u8>> {
        (0..V::ROW).flat_map(|place| {
            (0..=255).map(move |byte| {
                let mut bytes = vec![0; V::ROW];
                bytes[place] = byte;
                bytes
            })
        })
    }

    fn random(random: &mut Random) -> Option<Vec<u8>> {
        let rows = 0..random.below(MOST_ROWS);
        let row = |_| {
            let [zuniq, value] = [(); 2].map(|()| any_bits(random).to_le_bytes());
            let of_zuniq = size_of::<Z>();
            [&zuniq[..of_zuniq], &value[..V::ROW - of_zuniq]].concat()
        };
        Some(rows.flat_map(row).collect())
    }

    fn ours(bytes: &Vec<u8>) -> Self::Answer {
        let most = bytes.len() / V::ROW;
        let (mut zuniqs, mut values) = (vec![Z::of(0); most], vec![V::default(); most]);
        let number = V::read(bytes, &mut zuniqs, &mut values)?;
        Ok((zuniqs.into_iter().zip(values).collect(), number))
    }

    fn original(bytes: &Vec<u8>) -> Self::Answer {
        let entries = V::original_read(bytes);
        let number = entries.len();
        Ok((entries, number))
    }
}

pub struct Write<V, Z = u64>(PhantomData<(V, Z)>);

impl<V: Value<Z>, Z: Width> Kind for Write<V, Z> {
    const NAME: &'static str = V::WRITE;
    type Input = Vec<(Z, V)>;
    /// The bytes, and how many were written: that is what the original counts.
    type Answer = Result<(Vec<u8>, usize), Refusal>;

    /// One row in which one bit is 1.
    fn small() -> impl Iterator<Item = Vec<(Z, V)>> {
        let zuniqs = (0..64).map(|bit| (Z::of(1 << bit), V::of_bits(0)));
        let values = (0..64).map(|bit| (Z::of(0), V::of_bits(1 << bit)));
        zuniqs.chain(values).map(|row| vec![row])
    }

    fn random(random: &mut Random) -> Option<Vec<(Z, V)>> {
        let rows = 0..random.below(MOST_ROWS);
        let row = |_| (Z::of(any_bits(random)), V::of_bits(any_bits(random)));
        Some(rows.map(row).collect())
    }

    fn ours(entries: &Vec<(Z, V)>) -> Self::Answer {
        let (zuniqs, values): (Vec<Z>, Vec<V>) = entries.iter().copied().unzip();
        let mut bytes = vec![0; entries.len() * V::ROW];
        let number = V::write(&zuniqs, &values, &mut bytes)?;
        Ok((bytes, number * V::ROW))
    }

    fn original(entries: &Vec<(Z, V)>) -> Self::Answer {
        Ok(V::original_write(entries.clone()))
    }
}
