//! Comparing by a plain search over the pairs of states, with a bit for each pair that was seen. Nothing is joined.

use crate::answer::{Answer, Cell, End};
use crate::table::Table;

#[derive(Default)]
pub struct Product {
    seen: Vec<u64>,
    cells: Vec<Cell<u32>>,
}

impl Product {
    /// Compares state 0 of two tables. `joins` is the number of pairs that were noted, and the states of the second table are named by their
    /// numbers in the disjoint union.
    pub fn compare(&mut self, first: &Table, second: &Table, answer: &mut Answer) {
        let first_keeps = first.keeps(0);
        self.clear(first.states() * second.states());
        let end = if first_keeps == second.keeps(0) {
            self.run(first, second)
        } else {
            Some(End { reached: None, first_keeps })
        };
        answer.fill((0, first.states()), &self.cells, end);
    }

    fn clear(&mut self, pairs: usize) {
        self.seen.clear();
        self.seen.resize(pairs.div_ceil(64), 0);
        self.cells.clear();
    }

    /// Whether a pair was seen before; it is from now on.
    #[inline(always)]
    fn see(&mut self, pair: usize) -> bool {
        let word = &mut self.seen[pair / 64];
        let before = *word >> (pair % 64) & 1 == 1;
        *word |= 1 << (pair % 64);
        before
    }

    fn run(&mut self, first: &Table, second: &Table) -> Option<End> {
        let width = second.states();
        self.see(0);
        self.cells.push(Cell::default());
        let mut taken = 0;
        while let Some(&cell) = self.cells.get(taken) {
            let rows = first.row(cell.first).iter().zip(second.row(cell.second));
            for (letter, (&p, &q)) in rows.enumerate() {
                if self.see(usize::from(p) * width + usize::from(q)) {
                    continue;
                }
                let first_keeps = first.keeps(p);
                if first_keeps != second.keeps(q) {
                    return Some(End { reached: Some((taken, letter as u8)), first_keeps });
                }
                self.cells.push(Cell { first: p, second: q, origin: taken as u32, letter: letter as u8 });
            }
            taken += 1;
        }
        None
    }
}
