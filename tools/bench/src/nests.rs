//! A nest of five intersections beside a single one with as many states.

use crate::answer::Answer;
use crate::cases::{factors, SIZES};
use crate::contest::by_hand;
use crate::goals::Goals;
use crate::proved;
use crate::rounds::{interleave, Effort, Runner, Times};
use crate::sheet;
use crate::table::Table;
use crate::text::{columns, double, ratio, title, words};
use crate::union_find::UnionFind;

const SINGLES: [[usize; 2]; 3] = [[8, 8], [16, 16], [32, 32]];
const NESTS: [[usize; 6]; 3] = [[2, 2, 2, 2, 2, 2], [4, 4, 2, 2, 2, 2], [4, 4, 4, 4, 2, 2]];
const NAMES: [&str; 5] = ["single", "nest", "single dense", "nest dense", "union-find"];

/// Sheets whose rules are intersected, and the intersection made by hand.
struct Factors<const N: usize> {
    sheets: [Vec<u8>; N],
    whole: Table,
}

impl<const N: usize> Factors<N> {
    fn new(states: [usize; N]) -> Factors<N> {
        let tables = factors(&states);
        let whole = tables.iter().skip(1).fold(tables[0].clone(), |whole, table| whole.both(table));
        let sheets = std::array::from_fn(|i| sheet::write(&tables[i]));
        Factors { sheets, whole }
    }

    fn sheets(&self) -> [&[u8]; N] {
        std::array::from_fn(|i| &self.sheets[i][..])
    }

    /// The states that are compared: the first and the last.
    fn ends(&self) -> (usize, usize) {
        (0, self.whole.states() - 1)
    }

    fn by_hand(&self) -> Runner<'_> {
        by_hand::<UnionFind>(&self.whole, 0, self.ends().1 as u16)
    }
}

/// A single intersection, and a nest.
struct Case {
    single: Factors<2>,
    nest: Factors<6>,
}

impl Case {
    fn new(i: usize) -> Case {
        Case { single: Factors::new(SINGLES[i]), nest: Factors::new(NESTS[i]) }
    }

    fn by_single(&self, call: proved::Single) -> Runner<'_> {
        let single = &self.single;
        Runner::new(move |times| proved::single(call, single.sheets(), single.ends(), times))
    }

    fn by_nest(&self, call: proved::Nest) -> Runner<'_> {
        let nest = &self.nest;
        Runner::new(move |times| proved::nest(call, nest.sheets(), nest.ends(), times))
    }

    fn runners(&self) -> [Runner<'_>; NAMES.len()] {
        [
            self.by_single(proved::SINGLE),
            self.by_nest(proved::NEST),
            self.by_single(proved::SINGLE_DENSE),
            self.by_nest(proved::NEST_DENSE),
            self.single.by_hand(),
        ]
    }

    /// Checks the answers, and gives that of the single one and that of the nest.
    fn agreed(&self) -> [Answer; 2] {
        let agreed = [self.single.by_hand().answer(), self.nest.by_hand().answer()];
        for (name, (i, mut runner)) in NAMES.iter().zip(self.runners().into_iter().enumerate().take(4)) {
            assert_eq!(runner.answer(), agreed[i % 2], "{name} answers otherwise than union-find");
        }
        let [single, nest] = agreed.each_ref().map(|answer| answer.joins);
        assert!(single.abs_diff(nest) * 5 <= single, "a nest joins {nest}, a single one {single}");
        agreed
    }
}

/// Cases whose answers were checked.
pub struct Nests(Vec<(Case, [Answer; 2])>);

pub fn checked() -> Nests {
    let cases = (0..SIZES.len()).map(Case::new);
    Nests(cases.map(|case| (case.agreed(), case)).map(|(answers, case)| (case, answers)).collect())
}

impl Nests {
    /// Times and prints them all, and takes their ratios for the goals.
    pub fn print(&self, effort: Effort, goals: &mut Goals) {
        title("Microseconds of comparing in a single intersection and in a nest of five, best and median, and the median ratios nest/single:");
        let mut rows = vec![words(&["states", "joins", ""])];
        rows[0].extend(double(&NAMES));
        rows[0].extend(words(&["over tables", "over dense"]));
        for ((case, answers), size) in self.0.iter().zip(SIZES) {
            let times = interleave(&mut case.runners(), effort);
            let ratios = [times[1].ratio(&times[0]), times[3].ratio(&times[2])];
            goals.over_tables.take(format!("{size} states"), ratios[0]);
            goals.over_dense.take(format!("{size} states"), ratios[1]);
            let mut row = vec![size.to_string()];
            row.extend(answers.iter().map(|answer| answer.joins.to_string()));
            row.extend(times.iter().flat_map(Times::cells));
            row.extend(ratios.map(ratio));
            rows.push(row);
        }
        columns(&rows);
    }
}
