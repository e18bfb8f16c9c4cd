//! Classes as trees of parents: of two roots the lower number becomes that of the other, finding a root
//! halves the way to it, and two states with one parent are known to be joined before any root is sought.
//!
//! What else was tried, on an Intel Xeon at 2.5 GHz (family 6, model 85, stepping 7) with rustc 1.95, as
//! the geometric mean of the best times over all cases, where that of this one is 1. The very same method
//! in another struct came to 1.12, so less than that tells little.
//!
//! - the larger class takes in the smaller one: 1.13
//! - parents are not looked at first: 2.29; and the larger class takes in the smaller one: 3.06
//! - parents of 32 bits: 1.17
//! - a `Vec` of parents, whose indices are tested: 1.34
//! - each state on the way gets the parent of its parent: 1.03
//! - all states on the way get the root: 1.15; and the larger class takes in the smaller one: 1.20
//! - the way is left as it is: 2.32, and 18 at worst
//! - a way of two steps is left as it is: 1.09
//! - cells in a `Vec` that grows: 1.12
//! - rows and kept states are not tested, by unsafe code: 1.00
//! - a first pass over the 16 letters of a cell marks those whose states have no parent in common, before
//!   any is looked at closer: 1.21, between 0.66 for `deep` and 2.2 for `chain`

use crate::row::{new_row, number, Row};
use crate::search::{Classes, Joined, Rows};

pub struct UnionFind {
    parents: Box<Row<u16>>,
}

pub struct Trees<'a> {
    parents: &'a mut Row<u16>,
}

impl Default for UnionFind {
    fn default() -> UnionFind {
        UnionFind { parents: new_row() }
    }
}

impl Rows for UnionFind {
    type Classes<'a> = Trees<'a>;

    fn parted(&mut self, states: usize) -> Trees<'_> {
        number(&mut self.parents[..states]);
        Trees { parents: &mut self.parents }
    }
}

impl Trees<'_> {
    /// The root of a state. Every second state on the way gets the parent of its parent.
    #[inline(always)]
    fn root(&mut self, mut state: u16) -> u16 {
        loop {
            let parent = self.parents[usize::from(state)];
            if parent == state {
                return state;
            }
            let above = self.parents[usize::from(parent)];
            self.parents[usize::from(state)] = above;
            state = above;
        }
    }
}

impl Classes for Trees<'_> {
    #[inline(always)]
    fn join(&mut self, p: u16, q: u16, alike: impl FnOnce() -> bool) -> Joined {
        if self.parents[usize::from(p)] == self.parents[usize::from(q)] {
            return Joined::Before;
        }
        let (p, q) = (self.root(p), self.root(q));
        if p == q {
            return Joined::Before;
        }
        if !alike() {
            return Joined::Refused;
        }
        self.parents[usize::from(p.max(q))] = p.min(q);
        Joined::Now
    }
}
