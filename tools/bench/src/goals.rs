//! The goals, and whether they are met.

use crate::text::{columns, title};

/// A ratio that is to be no higher than a bound wherever it is taken.
pub struct Goal {
    name: &'static str,
    bound: f64,
    ratios: Vec<(String, f64)>,
}

impl Goal {
    fn new(name: &'static str, bound: f64) -> Goal {
        Goal { name, bound, ratios: Vec::new() }
    }

    pub fn take(&mut self, place: String, ratio: f64) {
        self.ratios.push((place, ratio));
    }

    fn row(&self) -> Vec<String> {
        let met = self.ratios.iter().filter(|(_, ratio)| *ratio <= self.bound).count();
        let worst = self.ratios.iter().max_by(|a, b| a.1.total_cmp(&b.1));
        let (place, ratio) = worst.expect("a goal has a ratio");
        vec![
            self.name.to_string(),
            format!("at most {:.2}", self.bound),
            format!("highest {ratio:.2}, {place}"),
            format!("{met} of {}", self.ratios.len()),
            if met == self.ratios.len() { "met" } else { "missed" }.to_string(),
        ]
    }
}

/// All goals, in the order in which they are printed.
pub struct Goals {
    pub settle_small: Goal,
    pub settle: Goal,
    pub dense_rings: Goal,
    pub dense: Goal,
    pub tables: Goal,
    pub open: Goal,
    pub growth: Goal,
    pub over_tables: Goal,
    pub over_dense: Goal,
}

impl Default for Goals {
    fn default() -> Goals {
        Goals {
            settle_small: Goal::new("settle/settle by hand, 64 states", 1.5),
            settle: Goal::new("settle/settle by hand, 256 and 1024 states", 1.0),
            dense_rings: Goal::new("dense/rings", 1.0),
            dense: Goal::new("dense/union-find, 1024 states", 1.0),
            tables: Goal::new("tables/union-find, 1024 states", 3.0),
            open: Goal::new("open/decode by hand", 0.5),
            growth: Goal::new("growth of dense, where states times letters grow by 4", 6.0),
            over_tables: Goal::new("nest/single over tables", 3.0),
            over_dense: Goal::new("nest/single over dense", 3.0),
        }
    }
}

impl Goals {
    fn all(&self) -> [&Goal; 9] {
        [
            &self.settle_small,
            &self.settle,
            &self.dense_rings,
            &self.dense,
            &self.tables,
            &self.open,
            &self.growth,
            &self.over_tables,
            &self.over_dense,
        ]
    }

    pub fn print(&self) {
        title("The goals, by the medians of the ratios in one round:");
        columns(&self.all().map(Goal::row));
    }
}
