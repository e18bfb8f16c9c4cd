//! What stands beside comparing, timed by itself: opening and decoding, copying, and settling two sheets in one call.

use crate::answer::Answer;
use crate::cases::{Make, KINDS, SIZES, SMALLEST};
use crate::contest::{decode, Pair};
use crate::goals::Goals;
use crate::proved;
use crate::rounds::{interleave, Effort, Runner, Times};
use crate::search::Search;
use crate::sheet;
use crate::table::Table;
use crate::text::{columns, double, ratio, title, words};
use crate::union_find::UnionFind;

const NAMES: [&str; 5] = ["open", "decode by hand", "copy of both", "settle", "settle by hand"];
const OPEN: usize = 0;
const DECODE: usize = 1;
const SETTLE: usize = 3;
const BY_HAND: usize = 4;

/// Work that has no answer of its own.
fn silent<'a>(mut work: impl FnMut(usize) + 'a) -> Runner<'a> {
    Runner::new(move |times| {
        work(times);
        Answer::default()
    })
}

fn decode_again(bytes: &[u8], table: &mut Table) {
    table.next.clear();
    table.kept.clear();
    sheet::decode(bytes, table).expect("a sheet is not well-formed");
}

fn settle_by_hand(pair: &Pair) -> impl FnMut(usize) -> Answer + '_ {
    let mut search = Search::<UnionFind>::default();
    move |times| {
        let mut answer = Answer::default();
        let start = pair.second_start();
        (0..times).for_each(|_| search.compare(&decode(&pair.sheets), 0, start, &mut answer));
        answer
    }
}

fn runners(pair: &Pair) -> [Runner<'_>; NAMES.len()] {
    let bytes = &pair.sheets[0];
    let mut table = Table::default();
    [
        silent(move |times| proved::open(bytes, times)),
        silent(move |times| (0..times).for_each(|_| decode_again(bytes, &mut table))),
        silent(move |times| proved::copy(pair.sheets(), times)),
        Runner::new(move |times| {
            (1..times).for_each(|_| drop(pair.settled()));
            pair.settled()
        }),
        Runner::new(settle_by_hand(pair)),
    ]
}

/// A row for one case and size.
fn row((name, make): (&str, Make), size: usize, effort: Effort, goals: &mut Goals) -> Vec<String> {
    let pair = Pair::new(make(size));
    let times = interleave(&mut runners(&pair), effort);
    let place = format!("{name} {size}");
    let [opened, settled] = [times[OPEN].ratio(&times[DECODE]), times[SETTLE].ratio(&times[BY_HAND])];
    goals.open.take(place.clone(), opened);
    let settle = if size == SMALLEST { &mut goals.settle_small } else { &mut goals.settle };
    settle.take(place, settled);
    let mut row = words(&[name, &size.to_string()]);
    row.extend(times.iter().flat_map(Times::cells));
    row.extend([opened, settled].map(ratio));
    row
}

pub fn print(effort: Effort, goals: &mut Goals) {
    title("Microseconds of what stands apart, best and median: opening and decoding one sheet, copying both, settling as a whole; and the median ratios open/decode and settle/settle by hand:");
    let mut rows = vec![words(&["case", "states"])];
    rows[0].extend(double(&NAMES));
    rows[0].extend(words(&["open/decode", "settle/by hand"]));
    for kind in KINDS {
        rows.extend(SIZES.map(|size| row(kind, size, effort, goals)));
    }
    columns(&rows);
}
