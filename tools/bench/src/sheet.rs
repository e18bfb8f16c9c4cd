//! Table sheets, as docs/SHEETS.md lays them out: writing and decoding by hand.

use crate::table::Table;

const HEAD_BITS: usize = 14;
const NEXT_BITS: usize = 10;

/// Fields of bits, put one behind the other.
#[derive(Default)]
struct Writer {
    bytes: Vec<u8>,
    held: u32,
    bits: usize,
}

impl Writer {
    fn put(&mut self, value: usize, width: usize) {
        self.held = (self.held << width) | value as u32;
        self.bits += width;
        while self.bits >= 8 {
            self.bits -= 8;
            self.bytes.push((self.held >> self.bits) as u8);
        }
    }

    fn finish(mut self) -> Vec<u8> {
        let filling = (8 - self.bits) % 8;
        self.put(0, filling);
        self.bytes
    }
}

pub fn write(table: &Table) -> Vec<u8> {
    let mut writer = Writer::default();
    writer.put(table.letters - 1, 4);
    writer.put(table.states() - 1, NEXT_BITS);
    for (row, &kept) in table.next.chunks_exact(table.letters).zip(&table.kept) {
        writer.put(usize::from(kept), 1);
        row.iter().for_each(|&to| writer.put(usize::from(to), NEXT_BITS));
    }
    writer.finish()
}

/// Fields of bits, taken one behind the other. Behind the last byte it reads zeros.
struct Reader<'a> {
    bytes: &'a [u8],
    held: u64,
    bits: usize,
}

impl Reader<'_> {
    /// Sees to it that at least 32 bits are held.
    fn fill(&mut self) {
        if self.bits >= 32 {
            return;
        }
        let (word, rest) = match self.bytes.split_first_chunk::<4>() {
            Some((word, rest)) => (*word, rest),
            None => (last_bytes(self.bytes), &[][..]),
        };
        self.held = (self.held << 32) | u64::from(u32::from_be_bytes(word));
        self.bytes = rest;
        self.bits += 32;
    }

    fn take(&mut self, width: usize) -> usize {
        self.fill();
        self.bits -= width;
        (self.held >> self.bits) as usize & ((1 << width) - 1)
    }
}

/// Up to three bytes, and zeros behind them.
fn last_bytes(bytes: &[u8]) -> [u8; 4] {
    let mut word = [0; 4];
    word[..bytes.len()].copy_from_slice(bytes);
    word
}

/// Decodes a sheet behind the states that `table` has, and raises its next states by their number. None if the sheet is not well-formed; the
/// table is then of no use.
pub fn decode(sheet: &[u8], table: &mut Table) -> Option<()> {
    let mut reader = Reader { bytes: sheet, held: 0, bits: 0 };
    table.letters = reader.take(4) + 1;
    let states = reader.take(NEXT_BITS) + 1;
    let bits = HEAD_BITS + states * (1 + NEXT_BITS * table.letters);
    if sheet.len() != bits.div_ceil(8) {
        return None;
    }
    let raise = table.states();
    table.next.reserve(states * table.letters);
    let mut highest = 0;
    for _ in 0..states {
        table.kept.push(reader.take(1) == 1);
        highest = highest.max(decode_row(&mut reader, table, raise));
    }
    let filling = sheet.len() * 8 - bits;
    (highest < states && reader.take(filling) == 0).then_some(())
}

/// Decodes the next states of one state. The highest of them, before it is raised.
fn decode_row(reader: &mut Reader, table: &mut Table, raise: usize) -> usize {
    let letters = table.letters;
    let mut highest = 0;
    table.next.extend((0..letters).map(|_| {
        let to = reader.take(NEXT_BITS);
        highest = highest.max(to);
        (to + raise) as u16
    }));
    highest
}
