//! What a comparing answers, and the cells that it notes.

#[derive(Clone, Debug, Default, PartialEq, Eq)]
pub struct Answer {
    pub differ: bool,
    pub joins: usize,
    /// The state that keeps the word; 0 if the states do not differ.
    pub kept_by: usize,
    pub word: Vec<u8>,
}

/// A noted pair of states, with the number of the cell that it was reached from, and the letter.
#[derive(Clone, Copy, Default)]
pub struct Cell<N> {
    pub first: u16,
    pub second: u16,
    pub origin: N,
    pub letter: u8,
}

/// Where a comparing ended: at two states of which exactly one is kept, and whether that is the first. They were reached from a cell by a letter, or
/// are those that it began with.
pub struct End {
    pub reached: Option<(usize, u8)>,
    pub first_keeps: bool,
}

impl Answer {
    /// The answer of a comparing of two states that noted these cells.
    pub fn fill<N: Copy + Into<u32>>(&mut self, states: (usize, usize), cells: &[Cell<N>], end: Option<End>) {
        self.joins = cells.len();
        self.differ = end.is_some();
        self.kept_by = 0;
        self.word.clear();
        if let Some(end) = end {
            self.kept_by = if end.first_keeps { states.0 } else { states.1 };
            if let Some((cell, letter)) = end.reached {
                read_word(cells, cell, letter, &mut self.word);
            }
        }
    }
}

/// Reads back the word that leads to a cell, and then on by a letter.
fn read_word<N: Copy + Into<u32>>(cells: &[Cell<N>], mut at: usize, letter: u8, word: &mut Vec<u8>) {
    word.push(letter);
    while at > 0 {
        word.push(cells[at].letter);
        at = cells[at].origin.into() as usize;
    }
    word.reverse();
}
