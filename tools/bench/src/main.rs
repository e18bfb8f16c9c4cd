//! Times the proved code beside code written by hand, and says which goals are met.
//!
//! Comparing is timed without what a call does but once, which is opening, decoding and copying: from the time of a call that repeats the comparing often
//! that of a call that does it once is taken away. Opening, copying and settling as a whole stand apart. In each round every contestant has a batch, and a
//! ratio is the median of the ratios of the rounds.

mod answer;
mod apart;
mod cases;
mod contest;
mod goals;
mod machine;
mod nests;
mod product;
mod proved;
mod random;
mod rings;
mod rounds;
mod row;
mod search;
mod sheet;
mod table;
mod text;
mod timed;
mod union_find;

use goals::Goals;
use rounds::Effort;

const FULL: Effort = Effort { rounds: 15, batch: 2e6 };
const QUICK: Effort = Effort { rounds: 5, batch: 1e6 };

fn main() {
    let quick = std::env::args().any(|argument| argument == "--quick");
    let effort = if quick { QUICK } else { FULL };
    machine::print();
    let kinds = timed::checked();
    let nests = nests::checked();

    let mut goals = Goals::default();

    let timed: Vec<_> = kinds.iter().map(|kind| kind.time(effort)).collect();
    timed.iter().for_each(|timed| timed.judge(&mut goals));
    timed::print(&timed);
    apart::print(effort, &mut goals);
    nests.print(effort, &mut goals);
    goals.print();
}
