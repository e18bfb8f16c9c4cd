//! Rows with an entry for each number of 16 bits, so that no index is tested. Only the entries of states that are there, and of noted cells, are
//! written and read.

pub type Row<T> = [T; 1 << 16];

pub fn new_row<T: Copy + Default>() -> Box<Row<T>> {
    Box::new([T::default(); 1 << 16])
}

/// Writes the numbers from 0 on.
pub fn number(row: &mut [u16]) {
    row.iter_mut().zip(0..).for_each(|(entry, number)| *entry = number);
}
