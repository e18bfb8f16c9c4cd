//! The cases, checked and timed.

use crate::answer::Answer;
use crate::cases::{Make, KINDS, LARGEST, SIZES};
use crate::contest::{self, Pair, COPIES, DENSE, NAMES, PRODUCT, RINGS, TABLES, UNION_FIND};
use crate::goals::Goals;
use crate::rounds::{interleave, Effort, Runner, Times};
use crate::text::{columns, double, ratio, title, words};

/// The pairs of one kind, by size, with what comparing them answers.
pub struct Kind {
    name: &'static str,
    pairs: Vec<(Pair, Answer)>,
}

/// The times of one kind: for each size those of all contestants.
pub struct Timed<'a> {
    kind: &'a Kind,
    times: Vec<Vec<Times>>,
}

const RATIOS: [(usize, usize); 5] =
    [(TABLES, UNION_FIND), (COPIES, UNION_FIND), (DENSE, UNION_FIND), (DENSE, RINGS), (PRODUCT, DENSE)];

/// Makes the cases, and checks that all contestants give one answer on each.
pub fn checked() -> Vec<Kind> {
    let pair = |make: Make, size: usize| {
        let pair = Pair::new(make(size));
        let answer = contest::agreed(&pair);
        (pair, answer)
    };
    let kind = |(name, make)| Kind { name, pairs: SIZES.map(|size| pair(make, size)).into() };
    KINDS.map(kind).into()
}

impl Kind {
    pub fn time(&self, effort: Effort) -> Timed<'_> {
        let mut runners: Vec<Runner> = self.pairs.iter().flat_map(|(pair, _)| contest::runners(pair)).collect();
        let mut times = interleave(&mut runners, effort).into_iter();
        let times = self.pairs.iter().map(|_| times.by_ref().take(NAMES.len()).collect()).collect();
        Timed { kind: self, times }
    }
}

impl Timed<'_> {
    /// The sizes, each with its answer and its times.
    fn sizes(&self) -> impl Iterator<Item = (usize, &Answer, &Vec<Times>)> {
        let sized = SIZES.iter().zip(&self.kind.pairs).zip(&self.times);
        sized.map(|((&size, (_, answer)), times)| (size, answer, times))
    }

    fn time_rows(&self) -> impl Iterator<Item = Vec<String>> + '_ {
        self.sizes().map(|(size, answer, times)| {
            let mut row = words(&[self.kind.name, &size.to_string(), &answer.joins.to_string()]);
            row.push(answer.word.len().to_string());
            row.extend(times.iter().flat_map(Times::cells));
            row
        })
    }

    fn ratio_rows(&self) -> impl Iterator<Item = Vec<String>> + '_ {
        self.sizes().map(|(size, _, times)| {
            let mut row = words(&[self.kind.name, &size.to_string()]);
            row.extend(RATIOS.map(|(a, b)| ratio(times[a].ratio(&times[b]))));
            row
        })
    }

    fn growth_rows(&self) -> impl Iterator<Item = Vec<String>> + '_ {
        (1..SIZES.len()).map(|i| {
            let sizes = format!("{} to {}", SIZES[i - 1], SIZES[i]);
            let mut row = words(&[self.kind.name, &sizes, &ratio(SIZES[i] as f64 / SIZES[i - 1] as f64)]);
            let grown = self.times[i].iter().zip(&self.times[i - 1]);
            row.extend(grown.map(|(more, fewer)| ratio(more.ratio(fewer))));
            row
        })
    }

    /// Takes the ratios that goals are about: beside the union-find at the largest size alone.
    pub fn judge(&self, goals: &mut Goals) {
        for (size, _, times) in self.sizes() {
            let place = || format!("{} {size}", self.kind.name);
            goals.dense_rings.take(place(), times[DENSE].ratio(&times[RINGS]));
            if size == LARGEST {
                goals.dense.take(place(), times[DENSE].ratio(&times[UNION_FIND]));
                goals.tables.take(place(), times[TABLES].ratio(&times[UNION_FIND]));
            }
        }
        for i in 1..SIZES.len() {
            let place = format!("{} {} to {}", self.kind.name, SIZES[i - 1], SIZES[i]);
            goals.growth.take(place, self.times[i][DENSE].ratio(&self.times[i - 1][DENSE]));
        }
    }
}

pub fn print(timed: &[Timed]) {
    title("Microseconds of a comparing, best and median:");
    let mut head = words(&["case", "states", "joins", "word"]);
    head.extend(double(&NAMES));
    print_rows(head, timed.iter().flat_map(Timed::time_rows));

    title("Ratios of these times, medians:");
    let mut head = words(&["case", "states"]);
    head.extend(RATIOS.map(|(a, b)| format!("{}/{}", NAMES[a], NAMES[b])));
    print_rows(head, timed.iter().flat_map(Timed::ratio_rows));

    title("Growth of the times, beside that of states times letters, medians:");
    let mut head = words(&["case", "states", "growth"]);
    head.extend(words(&NAMES));
    print_rows(head, timed.iter().flat_map(Timed::growth_rows));
}

fn print_rows(head: Vec<String>, rows: impl Iterator<Item = Vec<String>>) {
    columns(&std::iter::once(head).chain(rows).collect::<Vec<_>>());
}
