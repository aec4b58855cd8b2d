//! Section 7: rows of any bits, and densities of counts.

use differential::{
    cells::DEPTH_MAX,
    floats::Float,
    kinds::RowValue,
    random::{any_of, Random},
    widths::Width,
};
use oracle::run;

use crate::{Line, Number};

/// Prints `drawn` lines of each call on rows, and the densities.
pub fn print(random: &mut Random, drawn: usize) {
    for _ in 0..drawn {
        print_rows::<u32, u64>(random, ["read_count_rows", "write_count_rows"]);
    }
    for _ in 0..drawn {
        print_rows::<u64, u64>(random, ["read_density_rows", "write_density_rows"]);
    }
    for depth in 0..=DEPTH_MAX {
        let any = random.bits() as u32;
        let edge = any_of(random, &[0, 2, 3, u32::MAX]);
        for count in [1, any, edge] {
            let density = Float(run::density::<u64>(count, depth));
            let line = Line::new("density_of_count").with(depth).with(count);
            line.with(density).print();
        }
    }
}

pub fn print_narrow(random: &mut Random, drawn: usize) {
    for _ in 0..drawn {
        print_rows::<u32, u32>(random, ["read_narrow_rows", "write_narrow_rows"]);
    }
}

/// Rows written and read again. Places past them stay: there is one of each, and a byte.
fn print_rows<V: RowValue<Z> + Number, Z: Width + Number>(
    random: &mut Random,
    [read, write]: [&'static str; 2],
) {
    let most = 40 / V::ROW as u64;
    let rows = random.below(most + 1);
    let entries: Vec<(Z, V)> = (0..rows)
        .map(|_| (Z::of(any_bits(random)), V::of_bits(any_bits(random))))
        .collect();
    let (zuniqs, values): (Vec<Z>, Vec<V>) = entries.iter().copied().unzip();
    let (bytes, written) = V::original_write(entries);
    assert_eq!(bytes.len(), written, "the original counts its bytes");
    let free = vec![170u8; bytes.len() + 1];
    Line::new(write)
        .with_list(&zuniqs)
        .with_list(&values)
        .with_list(&free)
        .with(bytes.len() / V::ROW)
        .with_list(&[&bytes[..], &[170]].concat())
        .print();
    let entries = V::original_read(&bytes);
    let (mut zuniqs, mut values): (Vec<Z>, Vec<V>) = entries.into_iter().unzip();
    let rows = zuniqs.len();
    zuniqs.push(Z::of(2));
    values.push(V::of_bits(3));
    Line::new(read)
        .with_list(&bytes)
        .with_list(&vec![Z::of(2); rows + 1])
        .with_list(&vec![V::of_bits(3); rows + 1])
        .with(rows)
        .with_list(&zuniqs)
        .with_list(&values)
        .print();
}

/// Any number of bits, now and then all ones above them: so NaNs, infinities and zeros are frequent.
fn any_bits(random: &mut Random) -> u64 {
    let ones = match random.below(8) {
        0 => 0x7ff0_0000_0000_0000,
        1 => 0xfff0_0000_0000_0000,
        _ => 0,
    };
    ones | random.bits() >> random.below(64)
}
