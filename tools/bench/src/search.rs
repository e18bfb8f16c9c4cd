//! Comparing two states as docs/REGISTER.md has it, over any classes.

use crate::answer::{Answer, Cell, End};
use crate::row::{new_row, Row};
use crate::table::Table;

/// The rows of some classes, kept from one comparing to the next.
pub trait Rows: Default {
    type Classes<'a>: Classes
    where
        Self: 'a;

    /// Classes in which the states below `states` are parted.
    fn parted(&mut self, states: usize) -> Self::Classes<'_>;
}

pub trait Classes {
    /// Joins two states if they are not joined, and are alike.
    fn join(&mut self, p: u16, q: u16, alike: impl FnOnce() -> bool) -> Joined;
}

pub enum Joined {
    Before,
    Now,
    Refused,
}

pub struct Search<R> {
    rows: R,
    cells: Box<Row<Cell<u16>>>,
}

impl<R: Rows> Default for Search<R> {
    fn default() -> Search<R> {
        Search { rows: R::default(), cells: new_row() }
    }
}

impl<R: Rows> Search<R> {
    /// Parts all states, and compares two of them that are not the same.
    pub fn compare(&mut self, table: &Table, p: u16, q: u16, answer: &mut Answer) {
        let first_keeps = table.keeps(p);
        let (noted, end) = if first_keeps == table.keeps(q) {
            run(self.rows.parted(table.states()), &mut self.cells, table, p, q)
        } else {
            (0, Some(End { reached: None, first_keeps }))
        };
        answer.fill((p.into(), q.into()), &self.cells[..usize::from(noted)], end);
    }
}

/// Joins p and q and the pairs that follow. How many pairs were noted, and where it ended, if it did before no cell was left.
fn run<C: Classes>(mut classes: C, cells: &mut Row<Cell<u16>>, table: &Table, p: u16, q: u16) -> (u16, Option<End>) {
    let (next, kept, letters) = (&table.next[..], &table.kept[..], table.letters);
    let row = |state: u16| &next[usize::from(state) * letters..][..letters];
    let keeps = |state: u16| kept[usize::from(state)];
    classes.join(p, q, || true);
    cells[0] = Cell { first: p, second: q, origin: 0, letter: 0 };
    let (mut taken, mut noted) = (0u16, 1u16);
    while taken < noted {
        let cell = cells[usize::from(taken)];
        let rows = row(cell.first).iter().zip(row(cell.second));
        for (letter, (&first, &second)) in rows.enumerate() {
            match classes.join(first, second, || keeps(first) == keeps(second)) {
                Joined::Before => {}
                Joined::Now => {
                    cells[usize::from(noted)] = Cell { first, second, origin: taken, letter: letter as u8 };
                    noted += 1;
                }
                Joined::Refused => {
                    let reached = Some((usize::from(taken), letter as u8));
                    return (noted, Some(End { reached, first_keeps: keeps(first) }));
                }
            }
        }
        taken += 1;
    }
    (noted, None)
}
