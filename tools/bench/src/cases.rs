//! The cases: two sheets each, made from tables of so many states and 16 letters.

use crate::random::Random;
use crate::table::Table;

pub const LETTERS: usize = 16;
pub const SMALLEST: usize = 64;
pub const LARGEST: usize = 1024;
pub const SIZES: [usize; 3] = [SMALLEST, 256, LARGEST];

/// Makes two tables of so many states.
pub type Make = fn(usize) -> (Table, Table);

pub const KINDS: [(&str, Make); 5] =
    [("renamed", renamed), ("split", split), ("few", few), ("deep", deep), ("chain", chain)];

/// A random table, and the same with other numbers for its states, but for the start.
fn renamed(n: usize) -> (Table, Table) {
    let mut random = Random::new(1);
    let first = Table::random(&mut random, n, LETTERS);
    let new = random.order(n);
    let mut old = vec![0; n];
    new.iter().enumerate().for_each(|(state, &name)| old[name] = state);
    let second =
        Table::made(n, LETTERS, |state| first.kept[old[state]], |state, letter| new[first.next(old[state], letter)]);
    (first, second)
}

/// A table made from one with fewer states: `class` says of which of them each state is, and each arrow leads to some state of the class that it has to.
fn spread(random: &mut Random, small: &Table, class: &[usize]) -> Table {
    let members: Vec<Vec<usize>> =
        (0..small.states()).map(|c| (0..class.len()).filter(|&state| class[state] == c).collect()).collect();
    Table::made(
        class.len(),
        small.letters,
        |state| small.kept[class[state]],
        |state, letter| {
            let among = &members[small.next(class[state], letter)];
            among[random.below(among.len())]
        },
    )
}

/// Each state of a random table split in two, in two ways.
fn split(n: usize) -> (Table, Table) {
    let mut random = Random::new(2);
    let small = Table::random(&mut random, n / 2, LETTERS);
    let class: Vec<usize> = (0..n).map(|state| state / 2).collect();
    (spread(&mut random, &small, &class), spread(&mut random, &small, &class))
}

/// Many states of eight classes.
fn few(n: usize) -> (Table, Table) {
    let mut random = Random::new(3);
    let small = Table::random(&mut random, 8, LETTERS);
    let mut class = || (0..n).map(|state| if state < 8 { state } else { random.below(8) }).collect::<Vec<_>>();
    let (first, second) = (class(), class());
    (spread(&mut random, &small, &first), spread(&mut random, &small, &second))
}

/// One letter of each state leads on, and all others to some state that is no further; only the first table keeps the last state.
fn deep(n: usize) -> (Table, Table) {
    let mut random = Random::new(4);
    let onward: Vec<usize> = (0..n).map(|_| random.below(LETTERS)).collect();
    let mut side = |kept: bool| {
        Table::made(
            n,
            LETTERS,
            |state| kept && state == n - 1,
            |state, letter| {
                if letter == onward[state] {
                    (state + 1).min(n - 1)
                } else {
                    random.below(state + 1)
                }
            },
        )
    };
    (side(true), side(false))
}

/// Every letter leads to the next state, and from the last one, which alone is kept, to itself.
fn chain(n: usize) -> (Table, Table) {
    let side = || Table::made(n, LETTERS, |state| state == n - 1, |state, _| (state + 1).min(n - 1));
    (side(), side())
}

/// Random tables with these numbers of states, of which the first has all states dropped.
pub fn factors(states: &[usize]) -> Vec<Table> {
    let mut random = Random::new(5);
    let mut tables: Vec<Table> = states.iter().map(|&n| Table::random(&mut random, n, LETTERS)).collect();
    let first = tables.remove(0).dropped();
    tables.insert(0, first);
    tables
}
