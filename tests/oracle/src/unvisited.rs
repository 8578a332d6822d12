//! The numbers that a search hasn't visited, the next of them found by jumps over the visited ones.

/// How far on to look from a visited number; 0 at an unvisited one. A jump leads over visited numbers alone.
pub struct Unvisited(Vec<u32>);

impl Unvisited {
    /// The numbers below `end`, the last of which must stay unvisited: every jump ends there at the latest.
    pub fn below(end: usize) -> Unvisited {
        Unvisited(vec![0; end])
    }

    pub fn visit(&mut self, number: usize) {
        self.0[number] = 1;
    }

    /// The lowest unvisited number that isn't below this one. Each jump taken ends there from now on, so that long
    /// slots over visited minutes stay quick.
    pub fn next(&mut self, number: usize) -> usize {
        let mut found = number;
        while self.0[found] != 0 {
            found += self.0[found] as usize;
        }
        let mut at = number;
        while at < found {
            let jump = std::mem::replace(&mut self.0[at], (found - at) as u32);
            at += jump as usize;
        }
        found
    }
}
