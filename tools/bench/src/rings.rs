//! Classes as labels: a ring leads through the states of each class.

use crate::row::{new_row, number, Row};
use crate::search::{Classes, Joined, Rows};

pub struct Rings {
    labels: Box<Row<u16>>,
    ring: Box<Row<u16>>,
    sizes: Box<Row<u16>>,
}

pub struct Labels<'a> {
    labels: &'a mut Row<u16>,
    ring: &'a mut Row<u16>,
    sizes: &'a mut Row<u16>,
}

impl Default for Rings {
    fn default() -> Rings {
        Rings { labels: new_row(), ring: new_row(), sizes: new_row() }
    }
}

impl Rows for Rings {
    type Classes<'a> = Labels<'a>;

    fn parted(&mut self, states: usize) -> Labels<'_> {
        number(&mut self.labels[..states]);
        number(&mut self.ring[..states]);
        self.sizes[..states].fill(1);
        Labels { labels: &mut self.labels, ring: &mut self.ring, sizes: &mut self.sizes }
    }
}

impl Labels<'_> {
    /// Gives the class of `start` another label.
    #[inline(always)]
    fn relabel(&mut self, start: u16, label: u16) {
        let mut at = start;
        loop {
            let after = self.ring[usize::from(at)];
            self.labels[usize::from(at)] = label;
            at = after;
            if at == start {
                return;
            }
        }
    }
}

impl Classes for Labels<'_> {
    #[inline(always)]
    fn join(&mut self, p: u16, q: u16, alike: impl FnOnce() -> bool) -> Joined {
        let (first, second) = (self.labels[usize::from(p)], self.labels[usize::from(q)]);
        if first == second {
            return Joined::Before;
        }
        if !alike() {
            return Joined::Refused;
        }
        let (a, b) = (self.sizes[usize::from(first)], self.sizes[usize::from(second)]);
        let (from, to) = if a < b { (p, second) } else { (q, first) };
        self.relabel(from, to);
        self.ring.swap(usize::from(p), usize::from(q));
        self.sizes[usize::from(to)] = a + b;
        Joined::Now
    }
}
