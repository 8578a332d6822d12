//! Earley's method: for each position of a text, every row of the grammar that can be under way there.
//!
//! A position has items exactly if the bytes before it begin some text of the grammar, for every row can be finished. So
//! the first position without items tells "the first byte that no formula could go on from".

use crate::grammar::{symbol, Part, Row, Symbol, GRAMMAR};
use std::ops::Range;

/// The first letters of a row, `read` of them, stand for the text from `start` up to the item's position.
#[derive(Clone, Copy)]
pub struct Item {
    row: usize,
    pub read: usize,
    pub start: usize,
    /// The item with one letter less.
    pub before: Option<usize>,
    /// The finished item that the last letter stands for, where it stands for a part.
    pub by: Option<usize>,
}

/// A whole text of the grammar: all items, and the finished one that is the formula.
pub struct Parsed {
    pub items: Vec<Item>,
    pub whole: usize,
}

/// The items so far, position by position.
struct Items {
    items: Vec<Item>,
    /// The first item of each position.
    firsts: Vec<usize>,
}

/// The error is the place of refusal 64; no limit plays a part in it.
pub fn parse(text: &[u8]) -> Result<Parsed, usize> {
    let mut all = Items { items: Vec::new(), firsts: vec![0] };
    all.foretell(Part::Formula);
    all.close();
    for (at, &byte) in text.iter().enumerate() {
        all.scan(byte);
        if all.of_position(at + 1).is_empty() {
            return Err(at);
        }
        all.close();
    }
    let is_whole = |&at: &usize| all.items[at].start == 0 && all.items[at].finishes(Part::Formula);
    let whole = all.of_position(text.len()).find(is_whole).ok_or(text.len())?;
    Ok(Parsed { items: all.items, whole })
}

impl Items {
    /// The numbers of a position's items.
    fn of_position(&self, position: usize) -> Range<usize> {
        self.firsts[position]..self.firsts.get(position + 1).copied().unwrap_or(self.items.len())
    }

    fn last_position(&self) -> usize {
        self.firsts.len() - 1
    }

    /// Begins the next position with the items that this byte moves on.
    fn scan(&mut self, byte: u8) {
        let waiting = self.of_position(self.last_position());
        self.firsts.push(self.items.len());
        for at in waiting {
            if matches!(self.items[at].next(), Some(Symbol::Byte(from, to)) if (from..=to).contains(&byte)) {
                self.move_on(at, None);
            }
        }
    }

    /// Adds all that follows from the last position's items without another byte.
    fn close(&mut self) {
        let mut at = self.firsts[self.last_position()];
        while at < self.items.len() {
            match self.items[at].next() {
                Some(Symbol::Part(part)) => self.foretell(part),
                Some(Symbol::Byte(..)) => {}
                None => self.finish(at),
            }
            at += 1;
        }
    }

    /// Every row of the part may start here.
    fn foretell(&mut self, part: Part) {
        let start = self.last_position();
        let foretold = |at: usize| self.items[at].read == 0 && self.items[at].row().part == part;
        if self.of_position(start).any(foretold) {
            return;
        }
        let rows = (0..GRAMMAR.len()).filter(|&row| GRAMMAR[row].part == part);
        self.items.extend(rows.map(|row| Item { row, read: 0, start, before: None, by: None }));
    }

    /// Moves on what waited for this part where the part starts. No row is empty, so that position is closed.
    fn finish(&mut self, by: usize) {
        let finished = self.items[by];
        for at in self.of_position(finished.start) {
            if self.items[at].next() == Some(Symbol::Part(finished.row().part)) {
                self.move_on(at, Some(by));
            }
        }
    }

    /// "each with one tree": an item that came in two ways would give some text a second one.
    fn move_on(&mut self, before: usize, by: Option<usize>) {
        let waiting = self.items[before];
        let moved = Item { read: waiting.read + 1, before: Some(before), by, ..waiting };
        let same = |at: usize| {
            let item = &self.items[at];
            (item.row, item.read, item.start) == (moved.row, moved.read, moved.start)
        };
        assert!(!self.of_position(self.last_position()).any(same), "two ways to one item");
        self.items.push(moved);
    }
}

impl Item {
    pub fn row(&self) -> &'static Row {
        &GRAMMAR[self.row]
    }

    /// None where the row is finished.
    fn next(&self) -> Option<Symbol> {
        self.row().letters.get(self.read).map(|&letter| symbol(letter))
    }

    pub fn is_finished(&self) -> bool {
        self.read == self.row().letters.len()
    }

    fn finishes(&self, part: Part) -> bool {
        self.is_finished() && self.row().part == part
    }
}
