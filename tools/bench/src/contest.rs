//! The contestants of a case: the proved code and the code written by hand.

use crate::answer::Answer;
use crate::product::Product;
use crate::proved;
use crate::rings::Rings;
use crate::rounds::Runner;
use crate::search::{Rows, Search};
use crate::sheet;
use crate::table::Table;
use crate::union_find::UnionFind;
use std::hint::black_box;

pub const NAMES: [&str; 6] = ["tables", "copies", "dense", "union-find", "rings", "product"];
pub const TABLES: usize = 0;
pub const COPIES: usize = 1;
pub const DENSE: usize = 2;
pub const UNION_FIND: usize = 3;
pub const RINGS: usize = 4;
pub const PRODUCT: usize = 5;

/// Two tables, their sheets, and the disjoint union decoded from these.
pub struct Pair {
    pub first: Table,
    pub second: Table,
    pub sheets: [Vec<u8>; 2],
    pub union: Table,
}

impl Pair {
    pub fn new((first, second): (Table, Table)) -> Pair {
        let sheets = [sheet::write(&first), sheet::write(&second)];
        let union = decode(&sheets);
        assert!(union == first.beside(&second), "a sheet is decoded to another table");
        Pair { first, second, sheets, union }
    }

    pub fn sheets(&self) -> [&[u8]; 2] {
        [&self.sheets[0], &self.sheets[1]]
    }

    /// The start of the second table, as a state of the union.
    pub fn second_start(&self) -> u16 {
        self.first.states() as u16
    }

    /// Opens and compares both, in one call of the proved code.
    pub fn settled(&self) -> Answer {
        proved::settle(self.sheets(), self.second_start().into())
    }
}

/// The disjoint union on two sheets, decoded by hand.
pub fn decode(sheets: &[Vec<u8>; 2]) -> Table {
    let mut union = Table::default();
    for sheet in sheets {
        sheet::decode(sheet, &mut union).expect("a sheet is not well-formed");
    }
    union
}

/// A comparing by hand, done again and again with the same rows.
pub fn by_hand<R: Rows + 'static>(table: &Table, p: u16, q: u16) -> Runner<'_> {
    let mut search = Search::<R>::default();
    Runner::new(move |times| {
        let mut answer = Answer::default();
        (0..times).for_each(|_| search.compare(black_box(table), p, q, &mut answer));
        answer
    })
}

fn by_product(pair: &Pair) -> Runner<'_> {
    let mut product = Product::default();
    Runner::new(move |times| {
        let mut answer = Answer::default();
        (0..times).for_each(|_| product.compare(&pair.first, &pair.second, &mut answer));
        answer
    })
}

fn by_proved(call: proved::Compare, pair: &Pair) -> Runner<'_> {
    Runner::new(move |times| proved::compare(call, pair.sheets(), times))
}

/// All contestants, in the order of their names.
pub fn runners(pair: &Pair) -> [Runner<'_>; 6] {
    [
        by_proved(proved::TABLES, pair),
        by_proved(proved::COPIES, pair),
        by_proved(proved::DENSE, pair),
        by_hand::<UnionFind>(&pair.union, 0, pair.second_start()),
        by_hand::<Rings>(&pair.union, 0, pair.second_start()),
        by_product(pair),
    ]
}

/// Checks that all give one answer, and gives it. The product search has as many joins as it likes.
pub fn agreed(pair: &Pair) -> Answer {
    let mut runners = runners(pair);
    let agreed = runners[UNION_FIND].answer();
    assert_eq!(pair.settled(), agreed, "settling answers otherwise than union-find");
    for (name, runner) in NAMES.iter().zip(&mut runners) {
        let mut answer = runner.answer();
        if *name == NAMES[PRODUCT] {
            answer.joins = agreed.joins;
        }
        assert_eq!(answer, agreed, "{name} answers otherwise than union-find");
    }
    agreed
}
