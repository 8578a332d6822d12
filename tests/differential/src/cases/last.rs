//! The case under way, kept in a file: after a crash or a call without end it tells how to run that case alone.

use std::fmt;
use std::fs::File;
use std::io::{Seek, Write};

/// The name of the file; without it nothing is kept.
const VARIABLE: &str = "DIFFERENTIAL_LAST";

/// As wide as the widest text, so that each covers the one before it.
const WIDTH: usize = 56;

/// Which case, as the options that run it alone.
#[derive(Clone, Copy, Debug, PartialEq, Eq)]
pub enum Which {
    Named(u64),
    Random {
        seed: u64,
        number: u64,
    },
    /// A rule typed as text, or written back.
    Text {
        seed: u64,
        number: u64,
    },
    /// One of all the short texts.
    Short(u64),
}

impl fmt::Display for Which {
    fn fmt(&self, to: &mut fmt::Formatter<'_>) -> fmt::Result {
        match self {
            Which::Named(number) => write!(to, "--named {number}"),
            Which::Random { seed, number } => write!(to, "--seed {seed} --case {number}"),
            Which::Text { seed, number } => write!(to, "--seed {seed} --text {number}"),
            Which::Short(number) => write!(to, "--short {number}"),
        }
    }
}

pub struct Last(Option<File>);

impl Last {
    /// Empty until the first case.
    pub fn open() -> Result<Last, String> {
        let Some(path) = std::env::var_os(VARIABLE) else {
            return Ok(Last(None));
        };
        let file = File::create(path).map_err(|why| format!("{VARIABLE}: {why}"))?;
        Ok(Last(Some(file)))
    }

    /// Before the call. A file that tells another case would mislead, so a failure ends the run.
    pub fn keep(&mut self, which: Which) {
        let Some(file) = &mut self.0 else {
            return;
        };
        let text = format!("{:<WIDTH$}\n", which.to_string());
        let kept = file.rewind().and_then(|()| file.write_all(text.as_bytes()));
        kept.unwrap_or_else(|why| panic!("{VARIABLE}: {why}"));
    }
}

#[cfg(test)]
mod tests {
    use super::{Which, WIDTH};

    #[test]
    fn the_widest_text_fits() {
        let (seed, number) = (u64::MAX, u64::MAX);
        for widest in [Which::Named(number), Which::Random { seed, number }, Which::Text { seed, number }] {
            assert!(widest.to_string().len() <= WIDTH);
        }
    }
}
