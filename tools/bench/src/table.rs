//! A rule as flat rows: the next states of each state, letter by letter, and whether each state is kept.

use crate::random::Random;

#[derive(Clone, Default, PartialEq, Eq)]
pub struct Table {
    pub letters: usize,
    pub next: Vec<u16>,
    pub kept: Vec<bool>,
}

impl Table {
    pub fn states(&self) -> usize {
        self.kept.len()
    }

    pub fn next(&self, state: usize, letter: usize) -> usize {
        usize::from(self.next[state * self.letters + letter])
    }

    pub fn keeps(&self, state: u16) -> bool {
        self.kept[usize::from(state)]
    }

    pub fn row(&self, state: u16) -> &[u16] {
        &self.next[usize::from(state) * self.letters..][..self.letters]
    }

    /// The table with so many states and letters whose next states are what `next` answers.
    pub fn made(
        states: usize,
        letters: usize,
        kept: impl FnMut(usize) -> bool,
        mut next: impl FnMut(usize, usize) -> usize,
    ) -> Table {
        let places = (0..states).flat_map(|state| (0..letters).map(move |letter| (state, letter)));
        Table {
            letters,
            next: places.map(|(state, letter)| next(state, letter) as u16).collect(),
            kept: (0..states).map(kept).collect(),
        }
    }

    pub fn random(random: &mut Random, states: usize, letters: usize) -> Table {
        let kept: Vec<bool> = (0..states).map(|_| random.coin()).collect();
        Table::made(states, letters, |state| kept[state], |_, _| random.below(states))
    }

    /// The same with all states dropped.
    pub fn dropped(mut self) -> Table {
        self.kept.fill(false);
        self
    }

    /// The disjoint union: the states of the second come behind those of the first.
    pub fn beside(&self, second: &Table) -> Table {
        let raise = self.states() as u16;
        Table {
            letters: self.letters,
            next: self.next.iter().copied().chain(second.next.iter().map(|to| to + raise)).collect(),
            kept: self.kept.iter().chain(&second.kept).copied().collect(),
        }
    }

    /// The intersection, by pairs of states.
    pub fn both(&self, second: &Table) -> Table {
        let n = second.states();
        Table::made(
            self.states() * n,
            self.letters,
            |state| self.kept[state / n] && second.kept[state % n],
            |state, letter| self.next(state / n, letter) * n + second.next(state % n, letter),
        )
    }
}
